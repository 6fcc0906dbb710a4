//! Cases of samples with overlap: read, placed, compared.

use crate::cases::Case;
use crate::contents::{Contents, Parameter, Sample};
use crate::frames;
use crate::lawful;
use crate::making;
use crate::placing;
use crate::random::Random;

pub fn drawn(random: &mut Random) -> Case {
    match random.below(10) {
        0..=5 => read(random),
        6..=7 => place(random),
        _ => compare(random),
    }
}

/// Lawful contents of which some sample that is wanted has overlap.
pub fn contents_with(random: &mut Random, wanted: fn(&Parameter) -> bool) -> Contents {
    loop {
        let contents = lawful::with_parameters(random);
        let has = |p: &Parameter| wanted(p) && p.samples.iter().any(Sample::has_overlap);
        if contents.parameters.iter().any(has) {
            return contents;
        }
    }
}

/// A sample with overlap: its parameter's number and its own.
fn asked(random: &mut Random, contents: &Contents) -> (u32, u32) {
    let mut overlapped = Vec::new();
    for (parameter, p) in (1..).zip(&contents.parameters) {
        let numbers = (1..).zip(&p.samples).filter(|(_, sample)| sample.has_overlap());
        overlapped.extend(numbers.map(|(sample, _)| (parameter, sample)));
    }
    *random.pick(&overlapped)
}

fn sample_of(contents: &Contents, parameter: u32, sample: u32) -> &Sample {
    &contents.parameters[parameter as usize - 1].samples[sample as usize - 1]
}

/// Copies agree, or one is off, or the value was counted on between two
/// components, or the frame is any.
fn read(random: &mut Random) -> Case {
    let contents = contents_with(random, |_| true);
    let (parameter, number) = asked(random, &contents);
    let sample = sample_of(&contents, parameter, number);
    let mut frame = frames::fitting(random, &contents);
    let value = random.next() % (1 << sample.width());
    match random.below(5) {
        0 => {}
        1 => roll_over(random, &contents, sample, &mut frame),
        way => {
            placing::write(&contents, sample, &mut frame, value);
            if way > 2 {
                frames::one_copy_off(random, &contents, sample, &mut frame);
            }
        }
    }
    let table = making::table_bytes(&contents);
    Case::Read { table, frame, parameter, sample: number }
}

/// The components from some on are those of the next value.
fn roll_over(random: &mut Random, contents: &Contents, sample: &Sample, frame: &mut [u16]) {
    let places = sample.places();
    let later = random.below(places.len());
    let value = if random.percent(50) {
        (1u64 << places[later]) - 1 + (random.next() << places[later])
    } else {
        random.next()
    };
    let mut after = frame.to_vec();
    placing::write(contents, sample, frame, value & 0xFFFF_FFFF);
    placing::write(contents, sample, &mut after, value.wrapping_add(1) & 0xFFFF_FFFF);
    for component in &sample.components[later..] {
        let place = contents.word_place(component);
        let mask = ((1u32 << component.high) - (1 << (component.low - 1))) as u16;
        frame[place] = (frame[place] & !mask) | (after[place] & mask);
    }
}

/// 10, unless it is another sample; the frame and the value may be bad too.
fn place(random: &mut Random) -> Case {
    let contents = contents_with(random, |_| true);
    let (parameter, sample) = asked(random, &contents);
    let parameter = if random.percent(20) { contents.parameters.len() as u32 } else { parameter };
    let count = contents.parameters[parameter as usize - 1].samples.len() as u32;
    let sample = match random.below(6) {
        0 => count + 1,
        1 => count,
        _ => sample.min(count),
    };
    let frame = match random.below(3) {
        0 => frames::spoiled(random, &contents),
        _ => frames::fitting(random, &contents),
    };
    let value = *random.pick(&[0, 1, 0, 1 << 33]);
    Case::Place { table: making::table_bytes(&contents), frame, parameter, sample, value }
}

/// An identifier with overlap agrees, or has its raw value and a copy off.
fn compare(random: &mut Random) -> Case {
    let contents = contents_with(random, |p| p.identifier.is_some());
    let mut frame = frames::fitting(random, &contents);
    frames::place_identifiers(&contents, &mut frame);
    if random.percent(60) {
        for parameter in contents.parameters.iter().filter(|p| p.identifier.is_some()) {
            if random.percent(60) {
                frames::one_copy_off(random, &contents, &parameter.samples[0], &mut frame);
            }
        }
    }
    Case::Compare { table: making::table_bytes(&contents), frame }
}
