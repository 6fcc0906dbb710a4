//! A batch of cases and listings, made from a seed.

use crate::asking;
use crate::breaks;
use crate::card_cases;
use crate::card_listings::{self, CardListing};
use crate::cases::Case;
use crate::contents::Contents;
use crate::damage;
use crate::frames;
use crate::judging;
use crate::large;
use crate::lawful;
use crate::listings::{self, Listing};
use crate::making;
use crate::overlap_cases;
use crate::page_cases;
use crate::random::Random;
use crate::sheets;

pub struct Batch {
    pub cases: Vec<Case>,
    pub listings: Vec<Listing>,
    pub card_listings: Vec<CardListing>,
    pub seed: u64,
}

/// One listing is made for so many cases.
const CASES_A_LISTING: usize = 50;

/// One listing of a card is made for so many cases.
const CASES_A_CARD_LISTING: usize = 100;

pub fn batch(seed: u64, count: usize) -> Batch {
    let mut random = Random::seeded(seed);
    let stride = Stride::of(seed, count);
    let cases = (0..count).map(|index| case(&mut random, index, &stride)).collect();
    let listings =
        (0..count.div_ceil(CASES_A_LISTING)).map(|index| listings::one(&mut random, index)).collect();
    let card_listings = (0..count.div_ceil(CASES_A_CARD_LISTING))
        .map(|index| card_listings::one(&mut random, index))
        .collect();
    Batch { cases, listings, card_listings, seed }
}

/// How far apart the cases stand that are made in turn.
struct Stride {
    /// Large cases keep their number in a batch of more than 10,000.
    stretch: usize,
    /// Where this seed begins with those that are made in turn.
    start: usize,
}

impl Stride {
    fn of(seed: u64, count: usize) -> Self {
        Stride { stretch: count.div_ceil(10_000).max(1), start: (seed % 1000) as usize * 97 }
    }

    /// The turn that falls on this index, where one does.
    fn turn(&self, index: usize, every: usize, at: usize) -> Option<usize> {
        (index % every == at).then_some(index / every)
    }

    fn large(&self, index: usize, every: usize, at: usize) -> Option<usize> {
        self.turn(index, every * self.stretch, at)
    }
}

/// Large cases, and those made in turn, come at fixed places, so that each
/// batch has its share of them and not too many; the others are drawn.
fn case(random: &mut Random, index: usize, stride: &Stride) -> Case {
    if stride.large(index, 180, 7).is_some() {
        return make(random, sheets::oversized, small_lent);
    }
    if stride.large(index, 1500, 13).is_some() {
        return make(random, sheets::full_sized, ample_lent);
    }
    if let Some(turn) = stride.large(index, 600, 23) {
        let sheet = sheets::at_count_limits(random, stride.start + turn);
        let lent = *random.pick(&[200_000, 100_000, 65_536]);
        return Case::Make { sheet, lent };
    }
    if let Some(turn) = stride.large(index, 1200, 37) {
        return Case::Check { table: large_table(random, stride.start + turn) };
    }
    if let Some(turn) = stride.large(index, 1600, 53) {
        return large_frame(random, turn);
    }
    if let Some(case) = large_card(random, index, stride) {
        return case;
    }
    if stride.large(index, 3000, 411).is_some() {
        return page_cases::of_many_samples(random);
    }
    let in_turn = match (stride.turn(index, 7, 5), stride.turn(index, 61, 40)) {
        (Some(turn), _) => Some(sheets::misspelled_in_turn(random, stride.start + turn)),
        (_, Some(turn)) => Some(sheets::misordered_in_turn(random, stride.start + turn)),
        _ => None,
    };
    match in_turn {
        Some(sheet) => Case::Make { lent: small_lent(random, &sheet), sheet },
        None => drawn(random),
    }
}

fn large_card(random: &mut Random, index: usize, stride: &Stride) -> Option<Case> {
    if stride.large(index, 180, 91).is_some() {
        return Some(card_cases::too_long(random));
    }
    if let Some(turn) = stride.large(index, 900, 131) {
        return Some(card_cases::longest(random, stride.start + turn));
    }
    let turn = stride.large(index, 1000, 311)?;
    Some(card_cases::too_long_and_refused(random, turn))
}

fn drawn(random: &mut Random) -> Case {
    match random.below(100) {
        0..=34 => drawn_make(random),
        35..=48 => check(random),
        49..=56 => read(random),
        57..=64 => place(random),
        65..=70 => compare(random),
        71..=73 => name(random),
        74..=77 => mnemonic(random),
        78..=82 => overlap_cases::drawn(random),
        83..=88 => page_cases::drawn(random),
        _ => card_cases::drawn(random),
    }
}

fn make(
    random: &mut Random,
    sheet: fn(&mut Random) -> Vec<u8>,
    lent: fn(&mut Random, &[u8]) -> usize,
) -> Case {
    let sheet = sheet(random);
    let lent = lent(random, &sheet);
    Case::Make { sheet, lent }
}

fn drawn_make(random: &mut Random) -> Case {
    match random.below(100) {
        0..=17 => make(random, sheets::lawful, lent_near_length),
        18..=20 => make(random, |random| sheets::broken(random, breaks::rule_of_16), lent_near_length),
        21..=60 => {
            let number = random.between(2, 16) as u8;
            let sheet = sheets::refused_by(random, number);
            let lent = small_lent(random, &sheet);
            Case::Make { sheet, lent }
        }
        61..=70 => make(random, sheets::one_fault, small_lent),
        71..=86 => make(random, sheets::two_faults, lent_near_length),
        87..=92 => make(random, sheets::at_the_end, small_lent),
        93..=94 => make(random, sheets::overfull, small_lent),
        _ => make(random, sheets::random_bytes, lent_near_length),
    }
}

fn small_lent(random: &mut Random, _: &[u8]) -> usize {
    match random.below(5) {
        0 => 0,
        1 => random.between(1, 40),
        _ => random.between(100, 1500),
    }
}

fn ample_lent(random: &mut Random, _: &[u8]) -> usize {
    random.between(4_000, 5_000)
}

/// Exactly the table's length, one below or above, or any other.
fn lent_near_length(random: &mut Random, sheet: &[u8]) -> usize {
    let Ok((contents, _)) = judging::judge_lines(sheet) else {
        return small_lent(random, sheet);
    };
    let length = making::table_bytes(&contents).len();
    match random.below(10) {
        0..=2 => length,
        3..=4 => length - 1,
        5 => random.below(length),
        6 => length + 1,
        _ => length + random.between(2, 300),
    }
}

/// A table of any form, mostly a lawful one, and what it was made from.
fn table(random: &mut Random, damaged_percent: usize) -> (Vec<u8>, Contents) {
    let contents =
        if random.percent(60) { lawful::with_parameters(random) } else { lawful::contents(random) };
    if random.percent(damaged_percent) {
        return (damage::damaged(random, &contents), contents);
    }
    (making::table_of_form(lawful::form(random, &contents), &contents), contents)
}

fn check(random: &mut Random) -> Case {
    if random.percent(12) {
        let mut contents = lawful::frame_only(random);
        breaks::rule_of_frames(random, &mut contents);
        return Case::Check { table: making::table_of_form(lawful::form(random, &contents), &contents) };
    }
    if random.percent(9) {
        let contents = lawful::contents(random);
        return Case::Check { table: damage::of_other_form(random, &contents) };
    }
    if random.percent(12) {
        let contents = lawful::with_parameters(random);
        return Case::Check { table: damage::of_other_overlap(random, &contents) };
    }
    let (table, _) = table(random, 88);
    Case::Check { table }
}

fn large_table(random: &mut Random, turn: usize) -> Vec<u8> {
    let contents = match turn % 5 {
        0 => large::of_parameters(random, 513),
        1 => large::of_components(4097),
        2 => large::beyond_any_sheet(random),
        3 => large::of_components(4096),
        _ => large::table_above_65536(random),
    };
    making::table_of_form(lawful::form(random, &contents), &contents)
}

/// The longest frames, or a sample far down in a long table.
fn large_frame(random: &mut Random, turn: usize) -> Case {
    let contents =
        if turn.is_multiple_of(2) { large::of_words(random) } else { large::of_samples(random, 4096) };
    let table = making::table_of_form(lawful::form(random, &contents), &contents);
    let mut frame = frames::fitting(random, &contents);
    let parameter = random.between(1, contents.parameters.len()) as u32;
    let sample = random.between(1, contents.parameters[parameter as usize - 1].samples.len()) as u32;
    match turn % 6 {
        0 => Case::Read { table, frame, parameter, sample },
        2 => Case::Compare { table, frame },
        4 => {
            frame.resize(40_000, 0);
            Case::Compare { table, frame }
        }
        1 => Case::Place { table, frame, parameter, sample, value: 1 },
        _ => Case::Read { table, frame, parameter, sample },
    }
}

/// A frame, mostly a fitting one.
fn frame(random: &mut Random, contents: &Contents, spoiled_percent: usize) -> Vec<u16> {
    if random.percent(spoiled_percent) {
        return frames::spoiled(random, contents);
    }
    frames::fitting(random, contents)
}

fn read(random: &mut Random) -> Case {
    let (table, contents) = table(random, 8);
    let frame = frame(random, &contents, 25);
    let (parameter, sample) = asking::numbers(random, &contents);
    Case::Read { table, frame, parameter, sample }
}

fn place(random: &mut Random) -> Case {
    let (table, contents) = table(random, 6);
    let frame = frame(random, &contents, 20);
    let (parameter, sample) = asking::numbers(random, &contents);
    let value = value(random, &contents, parameter);
    Case::Place { table, frame, parameter, sample, value }
}

/// A value near the limits of the parameter's width, or within them.
fn value(random: &mut Random, contents: &Contents, parameter: u32) -> u64 {
    let index = (parameter as usize).wrapping_sub(1);
    let width = contents.parameters.get(index).map_or(8, |p| p.samples[0].width());
    let size = 1u64 << width;
    match random.below(12) {
        0 => size - 1,
        1 | 2 => size,
        3 => 1 << 63,
        4 => u64::MAX,
        5 => (1 << 32) + random.next() % size,
        6 => size + random.next() % size,
        7 => size / 2,
        8 => 0,
        _ => random.next() % size,
    }
}

fn compare(random: &mut Random) -> Case {
    let (table, contents) = table(random, 6);
    let frame = match random.below(10) {
        0..=1 => frames::spoiled(random, &contents),
        2 => {
            let mut frame = frames::differing(random, &contents);
            frames::one_word_too_high(random, &contents, &mut frame);
            frame
        }
        3..=6 => frames::differing(random, &contents),
        _ => {
            let mut frame = frames::fitting(random, &contents);
            frames::place_identifiers(&contents, &mut frame);
            frame
        }
    };
    Case::Compare { table, frame }
}

fn name(random: &mut Random) -> Case {
    let (table, contents) = table(random, 10);
    let parameter = asking::number(random, contents.parameters.len());
    Case::Name { table, parameter }
}

fn mnemonic(random: &mut Random) -> Case {
    let (table, contents) = table(random, 6);
    let known: Vec<&Vec<u8>> =
        contents.parameters.iter().map(|p| &p.mnemonic).filter(|m| !m.is_empty()).collect();
    if known.is_empty() {
        let unknown = random.pick(&["", "PCH", " "]).as_bytes().to_vec();
        return Case::Mnemonic { table, mnemonic: unknown };
    }
    let mut asked = (*random.pick(&known)).clone();
    match random.below(14) {
        0 => asked.clear(),
        1 => drop(asked.pop()),
        2 => asked.push(b'X'),
        3 => asked.insert(0, b' '),
        4 => asked.push(*random.pick(b" \t\n,")),
        5 => asked.iter_mut().for_each(lawful::swap_case),
        6 => asked.truncate(1),
        7 => asked = random.pick(&contents.parameters).name.clone(),
        8 => asked = vec![b'q'; random.between(60, 300)],
        9 => asked[0] = 200,
        _ => {}
    }
    Case::Mnemonic { table, mnemonic: asked }
}
