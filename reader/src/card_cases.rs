//! Cases of the card calls, kinds 8 and 10.

use crate::carding;
use crate::cases::Case;
use crate::contents::Contents;
use crate::damage;
use crate::frames;
use crate::large;
use crate::lawful;
use crate::making;
use crate::random::Random;
use crate::streams::{self, Stream};

/// The longest stream.
const LONGEST: usize = 65_536;

/// Mostly a made table with parameters and known margins, and a stream for it.
pub fn drawn(random: &mut Random) -> Case {
    let contents = match random.below(100) {
        0..=8 => lawful::frame_only(random),
        9..=19 => streams::of_unknown_margins(random),
        _ => streams::contents(random),
    };
    let stream = streams::drawn(random, &contents);
    let table = match random.below(100) {
        0..=4 => damage::damaged(random, &contents),
        5..=12 => making::table_of_form(1, &contents),
        13..=19 => making::table_of_form(2, &contents),
        _ => making::table_bytes(&contents),
    };
    let lent = lent(random, &contents);
    if random.percent(50) {
        return Case::Card { table, stream: stream.bytes(), lent };
    }
    let from = from(random, &contents, &stream);
    Case::CardFrom { table, stream: stream.bytes(), from, lent }
}

/// The frame's words, more, or fewer.
fn lent(random: &mut Random, contents: &Contents) -> usize {
    let count = contents.frame_words();
    match random.below(10) {
        0..=3 => count,
        4 => count - 1,
        5 => 0,
        6 => random.below(count),
        _ => count + random.between(1, 20),
    }
}

/// At and about a frame's position, at and about the end, and far beyond it.
fn from(random: &mut Random, contents: &Contents, stream: &Stream) -> u32 {
    let end = 8 * stream.bytes().len();
    let length = carding::frame_length(contents);
    let at = if stream.positions.is_empty() { 0 } else { *random.pick(&stream.positions) };
    let from = match random.below(22) {
        0 => 0,
        1 | 2 => at,
        3 | 4 => at + 1,
        5 => at.saturating_sub(1),
        6 => random.below(end + 1),
        7 => end,
        8 => end + random.between(1, 100),
        9 => u32::MAX as usize,
        10 => u32::MAX as usize - random.below(length),
        11 => end.saturating_sub(length),
        12 => end.saturating_sub(length) + 1,
        13 => 65_536 + at,
        _ => random.below(at + 1),
    };
    from as u32
}

/// A stream too long by a byte or more, mostly with an agreeing frame.
pub fn too_long(random: &mut Random) -> Case {
    let contents = streams::contents(random);
    let stream = stretched(random, &contents, LONGEST + 1);
    long_case(random, making::table_bytes(&contents), stream, &contents)
}

/// A stream too long for a table that is refused first.
pub fn too_long_and_refused(random: &mut Random, turn: usize) -> Case {
    let contents = match turn % 4 {
        0 => lawful::frame_only(random),
        1 => streams::of_unknown_margins(random),
        _ => streams::contents(random),
    };
    let form = if turn % 4 == 2 && !contents.has_overlap() { 1 } else { 3 };
    let mut table = making::table_of_form(form, &contents);
    if turn % 4 == 3 {
        table.pop();
    }
    let stream = stretched(random, &contents, LONGEST + 1);
    long_case(random, table, stream, &contents)
}

fn long_case(random: &mut Random, table: Vec<u8>, stream: Vec<u8>, contents: &Contents) -> Case {
    let lent = lent(random, contents);
    if random.percent(50) {
        return Case::Card { table, stream, lent };
    }
    let from = *random.pick(&[0, 0, 1, 77, 524_288, u32::MAX]);
    Case::CardFrom { table, stream, from, lent }
}

/// At least so many bytes; the frame, where there is one, near the front.
fn stretched(random: &mut Random, contents: &Contents, least: usize) -> Vec<u8> {
    let length = match random.below(12) {
        0 => least + 1,
        1 => least + random.between(2, 5000),
        2 => 2 * LONGEST + random.below(100),
        _ => least,
    };
    let stream = streams::drawn(random, contents);
    let mut bytes = stream.bytes();
    bytes.resize(length, *random.pick(&[0, 255, 165]));
    bytes
}

/// Streams of 65,536 bytes, which are read.
pub fn longest(random: &mut Random, turn: usize) -> Case {
    match turn % 7 {
        0 => at_the_very_end(random, 0),
        1 => at_the_very_end(random, 1),
        2 => longest_frame(random, 0, 0),
        3 => longest_frame(random, 0, 1),
        4 => longest_frame(random, 1, 0),
        5 => far_down(random),
        _ => {
            let contents = streams::contents(random);
            let stream = streams::drawn(random, &contents).bytes();
            let stream = [vec![0; LONGEST.saturating_sub(stream.len())], stream].concat();
            let from = random.below(8 * LONGEST) as u32;
            Case::CardFrom { table: making::table_bytes(&contents), stream, from, lent: 40_000 }
        }
    }
}

/// The frame's last bit is the stream's last, or some bits beyond it.
fn at_the_very_end(random: &mut Random, beyond: usize) -> Case {
    let contents = streams::contents(random);
    let mut stream = Stream::new(random);
    let before = 8 * LONGEST + beyond - carding::frame_length(&contents);
    stream.fill(random, before);
    stream.put_agreeing(random, &contents);
    let mut bytes = stream.bytes();
    bytes.truncate(LONGEST);
    let lent = contents.frame_words();
    Case::Card { table: making::table_bytes(&contents), stream: bytes, lent }
}

/// The longest frame has as many bits as the longest stream; with a leading
/// bit more it fits nowhere.
fn longest_frame(random: &mut Random, leading: u16, fewer: usize) -> Case {
    let mut contents = large::of_words(random);
    contents.subframes[0].leading = Some(leading);
    let mut frame = frames::fitting(random, &contents);
    frames::place_identifiers(&contents, &mut frame);
    let stream = frame.iter().flat_map(|word| word.to_le_bytes()).collect();
    Case::Card { table: making::table_bytes(&contents), stream, lent: frame.len() - fewer }
}

/// A frame whose position needs more than 16 bits, asked for from there on.
fn far_down(random: &mut Random) -> Case {
    let contents = streams::contents(random);
    let mut stream = Stream::new(random);
    let before = random.between(65_536, 300_000);
    stream.fill(random, before);
    stream.put_agreeing(random, &contents);
    let mut bytes = stream.bytes();
    bytes.resize(LONGEST, 0);
    let from = before as u32 - random.below(2) as u32;
    Case::CardFrom { table: making::table_bytes(&contents), stream: bytes, from, lent: 40_000 }
}
