//! Lawful contents of every shape, mostly small.

use crate::contents::{Component, Contents, Parameter, Sample, Subframe};
use crate::random::Random;
use crate::seconds::greatest_common_divisor;

/// Lawful contents; about one in twelve without parameters.
pub fn contents(random: &mut Random) -> Contents {
    let parameterless = random.percent(8);
    let mut contents = frame_only(random);
    while !parameterless && !add_parameters(random, &mut contents) {
        contents = frame_only(random);
    }
    contents
}

/// Lawful contents with at least one parameter.
pub fn with_parameters(random: &mut Random) -> Contents {
    loop {
        let contents = contents(random);
        if !contents.parameters.is_empty() {
            return contents;
        }
    }
}

pub fn frame_only(random: &mut Random) -> Contents {
    let count = subframe_count(random);
    let alike = random.percent(50);
    let first = subframe(random);
    let mut subframes = vec![first.clone()];
    while subframes.len() < count {
        subframes.push(if alike { first.clone() } else { subframe(random) });
    }
    Contents { sequential: random.percent(50), subframes, parameters: vec![] }
}

fn subframe_count(random: &mut Random) -> usize {
    match random.below(60) {
        0..=26 => 1,
        27..=45 => 2,
        46..=56 => random.between(3, 4),
        57..=58 => random.between(5, 8),
        _ => *random.pick(&[16, 31, 32]),
    }
}

fn subframe(random: &mut Random) -> Subframe {
    let bits = match random.below(6) {
        0 => 12,
        1 => 16,
        2 => random.between(1, 2) as u16,
        _ => random.between(1, 16) as u16,
    };
    let words = match random.below(300) {
        0 => 1024,
        1 => random.between(100, 1023) as u16,
        2..=40 => 1,
        _ => random.between(1, 8) as u16,
    };
    let (numerator, denominator) = fraction(random);
    Subframe { bits, words, leading: margin(random), trailing: margin(random), numerator, denominator }
}

/// Unknown in one of three.
fn margin(random: &mut Random) -> Option<u16> {
    match random.below(6) {
        0 => Some(4095),
        1 => Some(random.between(1, 4094) as u16),
        2 | 3 => Some(0),
        _ => None,
    }
}

/// A form that can hold these contents, mostly the newest.
pub fn form(random: &mut Random, contents: &Contents) -> usize {
    if contents.has_overlap() {
        return 3;
    }
    *random.pick(&[1, 2, 2, 3, 3])
}

/// A lawful number of seconds in lowest terms.
fn fraction(random: &mut Random) -> (u64, u32) {
    let (above, below) = match random.below(7) {
        0 => (1, 1),
        1 => (random.between(1, 999_999) as u64, 1),
        2 => (random.between(1, 2000) as u64, *random.pick(&[10, 100, 1000])),
        3 => (random.between(1, 999_999_999_999) as u64, 1_000_000),
        4 => (random.between(1, 20) as u64, random.between(1, 20) as u64),
        5 => (random.between(1, 999_999) as u64, random.between(1, 999_999) as u64),
        _ => {
            let below = random.between(2, 999_999) as u64;
            let whole = random.between(0, 999_999) as u64;
            (whole * below + random.between(1, below as usize - 1) as u64, below)
        }
    };
    let divisor = greatest_common_divisor(above, below);
    (above / divisor, (below / divisor) as u32)
}

/// False where the frame has no room for distinct identifiers.
fn add_parameters(random: &mut Random, contents: &mut Contents) -> bool {
    for subframe in 1..=contents.subframes.len() as u16 {
        let Some(identifier) = identifier(random, contents, subframe) else { return false };
        contents.parameters.push(identifier);
    }
    for _ in 0..other_count(random) {
        let parameter = other_parameter(random, contents);
        contents.parameters.push(parameter);
    }
    random.shuffle(&mut contents.parameters);
    true
}

fn other_count(random: &mut Random) -> usize {
    match random.below(12) {
        0..=1 => 0,
        2..=10 => random.between(1, 2),
        _ => random.between(3, 6),
    }
}

fn identifier(random: &mut Random, contents: &Contents, subframe: u16) -> Option<Parameter> {
    for _ in 0..30 {
        let width = wanted_width(random);
        let Some(sample) = sample(random, contents, width, Some(subframe)) else { continue };
        let value = identifier_value(random, sample.width());
        if contents.parameters.iter().any(|p| p.identifier == Some(value)) {
            continue;
        }
        let [name, mnemonic, identification] = names(random, contents);
        let samples = vec![sample];
        return Some(Parameter {
            name,
            mnemonic,
            identification,
            signed: false,
            identifier: Some(value),
            samples,
        });
    }
    None
}

fn identifier_value(random: &mut Random, width: u32) -> u32 {
    let most = ((1u64 << width) - 1) as u32;
    match random.below(6) {
        0 => most,
        1 => 0,
        _ => (random.next() % (u64::from(most) + 1)) as u32,
    }
}

fn wanted_width(random: &mut Random) -> u32 {
    match random.below(8) {
        0 => 1,
        1 => 32,
        2 => 16,
        _ => random.between(1, 32) as u32,
    }
}

fn other_parameter(random: &mut Random, contents: &Contents) -> Parameter {
    let [name, mnemonic, identification] = names(random, contents);
    let mut first = None;
    while first.is_none() {
        let width = wanted_width(random);
        first = sample(random, contents, width, None);
    }
    let mut samples: Vec<Sample> = first.into_iter().collect();
    let count = match random.below(120) {
        0 => 64,
        1..=70 => 1,
        _ => random.between(2, 4),
    };
    while samples.len() < count {
        let next = next_sample(random, contents, &samples[0]);
        samples.push(next);
    }
    Parameter { name, mnemonic, identification, signed: random.percent(50), identifier: None, samples }
}

/// A further sample of the first one's width; now and then at the same place.
fn next_sample(random: &mut Random, contents: &Contents, first: &Sample) -> Sample {
    if !random.percent(20) {
        for _ in 0..10 {
            if let Some(sample) = sample(random, contents, first.width(), None) {
                return sample;
            }
        }
    }
    Sample { time: time(random), components: first.components.clone() }
}

fn time(random: &mut Random) -> u32 {
    match random.below(6) {
        0 => 0,
        1 => 999_999_999,
        2 => random.between(0, 999) as u32 * 1_000_000,
        3 => random.between(0, 20) as u32 * 100_000,
        _ => random.between(0, 999_999_999) as u32,
    }
}

/// A sample of this width, of at most 8 components; none where the random
/// places leave it incomplete.
pub fn sample(random: &mut Random, contents: &Contents, width: u32, within: Option<u16>) -> Option<Sample> {
    let mut sample = Sample { time: time(random), components: vec![] };
    let overlapping = random.percent(35);
    let mut overlap = 0;
    let mut place = 0;
    for _ in 0..60 {
        if sample.components.len() == 8 {
            return None;
        }
        let rest = width - place;
        let mut component = component(random, contents, rest, within);
        let shares = sample.components.iter().any(|earlier| earlier.shares_a_bit_with(&component));
        if shares || component.bits() < overlap {
            continue;
        }
        let more = component.bits() < rest;
        if overlapping && (more || random.percent(25)) {
            component.overlap = some_overlap(random, component.bits());
        }
        overlap = component.overlap;
        place += component.bits() - overlap;
        sample.components.push(component);
        if place == width {
            return Some(sample);
        }
    }
    None
}

/// Fewer than the component's bits; few, or nearly all.
fn some_overlap(random: &mut Random, bits: u32) -> u32 {
    match random.below(5) {
        0 => 0,
        1 | 2 => 1.min(bits - 1),
        3 => bits - 1,
        _ => random.below(bits as usize) as u32,
    }
}

fn component(random: &mut Random, contents: &Contents, most: u32, within: Option<u16>) -> Component {
    let subframe = within.unwrap_or_else(|| random.between(1, contents.subframes.len()) as u16);
    let declared = &contents.subframes[usize::from(subframe) - 1];
    let word = match random.below(5) {
        0 => declared.words,
        1 => 1,
        _ => random.between(1, usize::from(declared.words)) as u16,
    };
    let longest = (most as usize).min(usize::from(declared.bits));
    let width = if random.percent(60) { longest } else { random.between(1, longest) };
    let low = random.between(1, usize::from(declared.bits) - width + 1);
    Component { subframe, word, low: low as u8, high: (low + width - 1) as u8, overlap: 0 }
}

/// A name, mnemonic and identification that no earlier parameter has, but
/// which may look like an earlier one's.
fn names(random: &mut Random, contents: &Contents) -> [Vec<u8>; 3] {
    let earlier = contents.parameters.as_slice();
    let name = fresh(random, earlier, |p| &p.name);
    let mnemonic = if random.percent(65) { fresh(random, earlier, |p| &p.mnemonic) } else { vec![] };
    let identification =
        if random.percent(40) { fresh(random, earlier, |p| &p.identification) } else { vec![] };
    [name, mnemonic, identification]
}

fn fresh(random: &mut Random, earlier: &[Parameter], same: fn(&Parameter) -> &Vec<u8>) -> Vec<u8> {
    loop {
        let text = if random.percent(25) { look_alike(random, earlier) } else { None };
        let text = text.unwrap_or_else(|| name_text(random));
        if !earlier.iter().any(|parameter| *same(parameter) == text) {
            return text;
        }
    }
}

/// A text near an earlier one: other case, a space more, longer, or the same
/// text out of another field.
fn look_alike(random: &mut Random, earlier: &[Parameter]) -> Option<Vec<u8>> {
    if earlier.is_empty() {
        return None;
    }
    let parameter = random.pick(earlier);
    let texts = [&parameter.name, &parameter.mnemonic, &parameter.identification];
    let mut text: Vec<u8> = (*random.pick(&texts)).clone();
    if text.is_empty() || text.len() > 60 {
        return None;
    }
    match random.below(4) {
        0 => text.iter_mut().for_each(swap_case),
        1 if text.len() > 1 => text.insert(1, b' '),
        2 => text.push(b'X'),
        _ => {}
    }
    Some(text)
}

pub fn swap_case(byte: &mut u8) {
    if byte.is_ascii_alphabetic() {
        *byte ^= 32;
    }
}

fn name_text(random: &mut Random) -> Vec<u8> {
    const WORDS: [&str; 12] = [
        "Pitch",
        "Roll",
        "IAS",
        "Altitude",
        "Sync",
        "N1 Left",
        "Flap/Slat",
        "Heading",
        "Gear",
        "EGT",
        "Vert G",
        "Time",
    ];
    match random.below(12) {
        0 => text(random, 64),
        1 => {
            let length = random.between(1, 64);
            text(random, length)
        }
        2 => {
            let length = random.between(1, 2);
            text(random, length)
        }
        _ => format!("{}{}", random.pick(&WORDS), random.below(100)).into_bytes(),
    }
}

/// Lawful text of exactly this length.
pub fn text(random: &mut Random, length: usize) -> Vec<u8> {
    let mut text: Vec<u8> = (0..length)
        .map(|_| loop {
            let byte = if random.percent(10) { b' ' } else { random.between(33, 126) as u8 };
            if byte != b',' {
                break byte;
            }
        })
        .collect();
    for edge in [0, length.saturating_sub(1)] {
        if text.get(edge) == Some(&b' ') {
            text[edge] = b'"';
        }
    }
    text
}
