//! Card streams for given contents: with whole frames, with near ones, with none.

use crate::carding;
use crate::contents::{Contents, Parameter};
use crate::frames;
use crate::lawful;
use crate::placing;
use crate::random::Random;

/// A stream as it grows, bit by bit.
pub struct Stream {
    bits: Vec<bool>,
    /// Where agreeing frames were put.
    pub positions: Vec<usize>,
    /// What stands in margins and between frames: 0, 1 or anything.
    filler: usize,
}

impl Stream {
    pub fn new(random: &mut Random) -> Self {
        Stream { bits: vec![], positions: vec![], filler: random.below(4) }
    }

    pub fn fill(&mut self, random: &mut Random, count: usize) {
        for _ in 0..count {
            self.bits.push(match self.filler {
                0 => false,
                1 => true,
                _ => random.percent(50),
            });
        }
    }

    pub fn put(&mut self, random: &mut Random, contents: &Contents, frame: &[u16]) {
        let mut words = frame.iter();
        for subframe in &contents.subframes {
            let [leading, trailing] = subframe.margins();
            self.fill(random, leading);
            for word in words.by_ref().take(usize::from(subframe.words)) {
                self.bits.extend((0..subframe.bits).map(|bit| word >> bit & 1 == 1));
            }
            self.fill(random, trailing);
        }
    }

    /// A frame with every identifier in its place.
    pub fn put_agreeing(&mut self, random: &mut Random, contents: &Contents) {
        let mut frame = frames::fitting(random, contents);
        frames::place_identifiers(contents, &mut frame);
        self.positions.push(self.bits.len());
        self.put(random, contents, &frame);
    }

    /// What is left of a frame whose first bits were never recorded.
    fn put_end_of_frame(&mut self, random: &mut Random, contents: &Contents) {
        let frame = frames::fitting(random, contents);
        self.put(random, contents, &frame);
        let length = self.bits.len();
        self.bits.drain(..random.between(1, length));
    }

    /// A last byte of which only some bits are put has 0 above them.
    pub fn bytes(&self) -> Vec<u8> {
        let bits = self.bits.chunks(8);
        bits.map(|byte| byte.iter().rev().fold(0, |sum, &bit| 2 * sum + u8::from(bit))).collect()
    }
}

/// Lawful contents with parameters and known margins; mostly these are of few
/// bits, unlike in each subframe, and no random bits agree with an identifier.
pub fn contents(random: &mut Random) -> Contents {
    let wide = |p: &Parameter| p.identifier.is_none() || p.samples[0].width() > 5;
    let mut contents = lawful::with_parameters(random);
    for _ in 0..random.below(12) {
        if contents.parameters.iter().all(wide) {
            break;
        }
        contents = lawful::with_parameters(random);
    }
    let all_few = random.percent(75) || carding::frame_length(&contents) > 16_000;
    for subframe in &mut contents.subframes {
        for margin in [&mut subframe.leading, &mut subframe.trailing] {
            if all_few || margin.is_none() {
                *margin = Some(few(random));
            }
        }
    }
    contents
}

/// The same with unknown margins, of all subframes or of one.
pub fn of_unknown_margins(random: &mut Random) -> Contents {
    let mut contents = contents(random);
    let last = contents.subframes.len() - 1;
    let any = random.below(last + 1);
    let within = random.pick(&[0..=last, 0..=0, last..=last, any..=any]).clone();
    let [leading, trailing] = *random.pick(&[[true, false], [false, true], [true, true]]);
    for subframe in &mut contents.subframes[within] {
        subframe.leading = subframe.leading.filter(|_| !leading);
        subframe.trailing = subframe.trailing.filter(|_| !trailing);
    }
    contents
}

fn few(random: &mut Random) -> u16 {
    match random.below(3) {
        0 => 0,
        1 => random.between(1, 8) as u16,
        _ => random.between(1, 40) as u16,
    }
}

type Shape = fn(&mut Random, &Contents) -> Stream;

const SHAPES: &[Shape] = &[
    one_frame,
    one_frame,
    ending_with_frame,
    last_bit_missing,
    nearly,
    nearly,
    several_frames,
    several_frames,
    noise,
    shorter_than_frame,
];

pub fn drawn(random: &mut Random, contents: &Contents) -> Stream {
    random.pick(SHAPES)(random, contents)
}

fn one_frame(random: &mut Random, contents: &Contents) -> Stream {
    let mut stream = Stream::new(random);
    let [before, after] = [random.below(24), random.below(24)];
    stream.fill(random, before);
    stream.put_agreeing(random, contents);
    stream.fill(random, after);
    stream
}

/// The last trailing bit is the stream's last.
fn ending_with_frame(random: &mut Random, contents: &Contents) -> Stream {
    let mut stream = Stream::new(random);
    let before = 8 * random.between(1, 4) - carding::frame_length(contents) % 8;
    stream.fill(random, before);
    stream.put_agreeing(random, contents);
    stream
}

/// The last bit of an agreeing frame, or the last few, aren't recorded.
fn last_bit_missing(random: &mut Random, contents: &Contents) -> Stream {
    let mut stream = ending_with_frame(random, contents);
    let missing = if random.percent(60) { 1 } else { random.between(1, 8) };
    let filler: Vec<bool> = (0..missing).map(|_| random.percent(50)).collect();
    stream.bits.splice(0..0, filler);
    let recorded = stream.bits.len() / 8 * 8 - 8 * usize::from(missing == 8);
    stream.bits.truncate(recorded);
    stream.positions = vec![missing + stream.positions[0]];
    stream
}

/// A frame in which an identifier differs, and mostly an agreeing one later.
fn nearly(random: &mut Random, contents: &Contents) -> Stream {
    let mut stream = Stream::new(random);
    let [before, between] = [random.below(24), random.below(12)];
    stream.fill(random, before);
    let frame = match random.below(4) {
        0 => only_first_agrees(random, contents),
        1 => one_bit_off(random, contents),
        2 => copies_off(random, contents),
        _ => frames::differing(random, contents),
    };
    stream.put(random, contents, &frame);
    stream.fill(random, between);
    if random.percent(60) {
        stream.put_agreeing(random, contents);
    }
    stream
}

fn one_bit_off(random: &mut Random, contents: &Contents) -> Vec<u16> {
    let mut frame = frames::fitting(random, contents);
    frames::place_identifiers(contents, &mut frame);
    let identifiers: Vec<&Parameter> = identifiers(contents).collect();
    if !identifiers.is_empty() {
        let identifier = *random.pick(&identifiers);
        flip_a_bit(random, contents, identifier, &mut frame);
    }
    frame
}

/// Every identifier with overlap has its raw value, and a copy that differs.
fn copies_off(random: &mut Random, contents: &Contents) -> Vec<u16> {
    let mut frame = frames::fitting(random, contents);
    frames::place_identifiers(contents, &mut frame);
    for identifier in identifiers(contents) {
        frames::one_copy_off(random, contents, &identifier.samples[0], &mut frame);
    }
    frame
}

fn only_first_agrees(random: &mut Random, contents: &Contents) -> Vec<u16> {
    let mut frame = frames::fitting(random, contents);
    frames::place_identifiers(contents, &mut frame);
    let later = |p: &&Parameter| p.samples[0].components[0].subframe > 1;
    for identifier in identifiers(contents).filter(later) {
        flip_a_bit(random, contents, identifier, &mut frame);
    }
    frame
}

fn identifiers(contents: &Contents) -> impl Iterator<Item = &Parameter> {
    contents.parameters.iter().filter(|p| p.identifier.is_some())
}

fn flip_a_bit(random: &mut Random, contents: &Contents, identifier: &Parameter, frame: &mut [u16]) {
    let sample = &identifier.samples[0];
    let bit = random.below(sample.width() as usize);
    let value = u64::from(identifier.identifier.unwrap_or(0)) ^ 1 << bit;
    placing::write(contents, sample, frame, value);
}

/// Frames one after the other, at once or not; the card may begin and end
/// inside a frame.
pub fn several_frames(random: &mut Random, contents: &Contents) -> Stream {
    let mut stream = Stream::new(random);
    if random.percent(50) {
        stream.put_end_of_frame(random, contents);
    }
    let at_once = random.percent(50);
    for _ in 0..random.between(2, 4) {
        let between = if at_once { 0 } else { random.below(20) };
        stream.fill(random, between);
        stream.put_agreeing(random, contents);
    }
    if random.percent(40) {
        let begun = stream.bits.len();
        stream.put_agreeing(random, contents);
        let recorded = random.between(begun, stream.bits.len() - 1);
        stream.bits.truncate(recorded);
    }
    stream
}

fn noise(random: &mut Random, contents: &Contents) -> Stream {
    let mut stream = Stream::new(random);
    let frame = carding::frame_length(contents);
    let bits = match random.below(4) {
        0 => frame,
        1 => 8 * random.below(60),
        _ => frame + random.below(200),
    };
    stream.fill(random, bits);
    stream
}

/// Nothing at all, or the beginning of a frame.
fn shorter_than_frame(random: &mut Random, contents: &Contents) -> Stream {
    let mut stream = Stream::new(random);
    stream.put_agreeing(random, contents);
    let most = (carding::frame_length(contents) - 1) / 8;
    let bytes = if random.percent(40) { 0 } else { most - random.below(most.min(3) + 1) };
    stream.bits.truncate(8 * bytes);
    stream
}
