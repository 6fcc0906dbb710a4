//! Cases of the page call, kind 9.

use crate::asking;
use crate::cases::Case;
use crate::contents::Contents;
use crate::damage;
use crate::frames;
use crate::large;
use crate::lawful;
use crate::making;
use crate::overlap_cases;
use crate::paging::Request;
use crate::random::Random;

/// The most results that a case may lend.
const MOST_LENT: usize = 2_000;

/// Mostly a good table and a fitting frame, with good and refused requests.
pub fn drawn(random: &mut Random) -> Case {
    let contents = match random.below(10) {
        0..=3 => overlap_cases::contents_with(random, |_| true),
        4..=8 => lawful::with_parameters(random),
        _ => lawful::contents(random),
    };
    let count = count(random);
    let table = table(random, &contents, if count == 0 { 40 } else { 12 });
    let frame = match random.below(10) {
        0..=1 => frames::spoiled(random, &contents),
        _ => frames::fitting(random, &contents),
    };
    let requests = requests(random, &contents, count);
    Case::Page { table, frame, requests, lent: lent(random, count) }
}

fn table(random: &mut Random, contents: &Contents, bad_percent: usize) -> Vec<u8> {
    if !random.percent(bad_percent) {
        return making::table_of_form(lawful::form(random, contents), contents);
    }
    if random.percent(20) {
        return vec![];
    }
    damage::damaged(random, contents)
}

/// How many are asked for: none, few, sixty, and about 256.
fn count(random: &mut Random) -> usize {
    match random.below(100) {
        0..=6 => 0,
        7..=14 => 1,
        15..=41 => random.between(2, 12),
        42..=53 => 60,
        54..=59 => random.between(13, 254),
        60..=64 => 255,
        65..=76 => 256,
        77..=90 => 257,
        91..=95 => random.between(258, 400),
        96..=98 => *random.pick(&[511, 512, 513, 768]),
        _ => random.between(1_000, 2_100),
    }
}

/// As many as are asked for, more, or fewer.
fn lent(random: &mut Random, count: usize) -> usize {
    let lent = match random.below(20) {
        0..=6 => count,
        7..=8 => count + 1,
        9..=12 => count + random.between(2, 20),
        13..=14 => count.saturating_sub(1),
        15 => 0,
        16 => random.below(count + 1),
        17 => 256,
        18 => *random.pick(&[255, 257]),
        _ => MOST_LENT,
    };
    lent.min(MOST_LENT)
}

fn requests(random: &mut Random, contents: &Contents, count: usize) -> Vec<Request> {
    let all = all(contents);
    let mut asked = Vec::new();
    let style = random.below(6);
    for index in 0..count {
        asked.push(match style {
            0 | 1 if !all.is_empty() => *random.pick(&all),
            2 if !all.is_empty() => all[index % all.len()],
            3 if index > 0 && random.percent(40) => *random.pick(&asked),
            4 => refused(random, contents),
            _ => any(random, contents),
        });
    }
    asked
}

/// Every sample of the contents, in their order.
fn all(contents: &Contents) -> Vec<Request> {
    let mut all = Vec::new();
    for (parameter, p) in (1..).zip(&contents.parameters) {
        all.extend((1..).zip(&p.samples).map(|(sample, _)| Request { parameter, sample }));
    }
    all
}

fn any(random: &mut Random, contents: &Contents) -> Request {
    let (parameter, sample) = asking::numbers(random, contents);
    Request { parameter, sample }
}

/// A parameter or a sample that is not there.
fn refused(random: &mut Random, contents: &Contents) -> Request {
    loop {
        let request = any(random, contents);
        if !all(contents).contains(&request) {
            return request;
        }
    }
}

/// Samples from all over a long table.
pub fn of_many_samples(random: &mut Random) -> Case {
    let contents = large::of_samples(random, 4096);
    let all = all(&contents);
    let requests: Vec<Request> = (0..20).map(|_| *random.pick(&all)).chain([all[0], all[4095]]).collect();
    let frame = frames::fitting(random, &contents);
    let table = making::table_of_form(lawful::form(random, &contents), &contents);
    Case::Page { table, frame, lent: requests.len(), requests }
}

/// Whole but for its results, of which it lends one more than it may.
pub fn beyond_the_limit() -> Case {
    Case::Page { table: vec![], frame: vec![], requests: vec![], lent: MOST_LENT + 1 }
}
