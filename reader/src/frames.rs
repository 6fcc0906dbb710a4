//! Frames for given contents: fitting ones and spoiled ones.

use crate::contents::{Component, Contents, Sample};
use crate::placing;
use crate::random::Random;

/// A fitting frame; in most cases with every identifier in its place, and
/// with copies that agree in about half of the samples with overlap.
pub fn fitting(random: &mut Random, contents: &Contents) -> Vec<u16> {
    let style = random.below(6);
    let mut frame = Vec::new();
    for subframe in &contents.subframes {
        let most = ((1u32 << subframe.bits) - 1) as u16;
        for _ in 0..subframe.words {
            frame.push(match style {
                0 => most,
                1 => 0,
                _ => random.next() as u16 & most,
            });
        }
    }
    place_overlapped(random, contents, &mut frame);
    if random.percent(75) {
        place_identifiers(contents, &mut frame);
    }
    frame
}

/// A value in some samples with overlap; now and then one copy of a bit is off.
fn place_overlapped(random: &mut Random, contents: &Contents, frame: &mut [u16]) {
    let samples = contents.parameters.iter().flat_map(|p| &p.samples);
    for sample in samples.filter(|sample| sample.has_overlap()) {
        if random.percent(75) {
            let value = random.next() % (1 << sample.width());
            placing::write(contents, sample, frame, value);
            if random.percent(35) {
                one_copy_off(random, contents, sample, frame);
            }
        }
    }
}

/// Turns a bit of a component that the next one has too, which leaves the raw
/// value as it is.
pub fn one_copy_off(random: &mut Random, contents: &Contents, sample: &Sample, frame: &mut [u16]) {
    let overlapping: Vec<&Component> = sample.components.iter().filter(|c| c.overlap > 0).collect();
    if overlapping.is_empty() {
        return;
    }
    let component = *random.pick(&overlapping);
    let from_top = if random.percent(50) { 0 } else { random.below(component.overlap as usize) as u8 };
    frame[contents.word_place(component)] ^= 1 << (component.high - 1 - from_top);
}

pub fn place_identifiers(contents: &Contents, frame: &mut [u16]) {
    for parameter in &contents.parameters {
        if let Some(value) = parameter.identifier {
            placing::write(contents, &parameter.samples[0], frame, u64::from(value));
        }
    }
}

/// A frame with one thing wrong about its words.
pub fn spoiled(random: &mut Random, contents: &Contents) -> Vec<u16> {
    let mut frame = fitting(random, contents);
    match random.below(8) {
        0 => drop(frame.pop()),
        1 => frame.push(0),
        2 => frame.clear(),
        3 => frame.extend(vec![0; random.between(1, 9)]),
        _ => one_word_too_high(random, contents, &mut frame),
    }
    frame
}

/// A word at or above two to its bits, at any place of the frame. Where every
/// word has 16 bits there is none.
pub fn one_word_too_high(random: &mut Random, contents: &Contents, frame: &mut Vec<u16>) {
    let mut narrow = Vec::new();
    let mut start = 0;
    for subframe in &contents.subframes {
        if subframe.bits < 16 {
            narrow.extend((start..start + usize::from(subframe.words)).map(|at| (at, subframe.bits)));
        }
        start += usize::from(subframe.words);
    }
    if narrow.is_empty() {
        frame.push(1);
        return;
    }
    let (at, bits) = *random.pick(&narrow);
    frame[at] = match random.below(3) {
        0 => 1 << bits,
        1 => frame[at] | 1 << bits,
        _ => 65_535,
    };
}

/// A fitting frame in which one or more identifiers differ.
pub fn differing(random: &mut Random, contents: &Contents) -> Vec<u16> {
    let mut frame = fitting(random, contents);
    place_identifiers(contents, &mut frame);
    let all = random.percent(30);
    let identifiers: Vec<_> = contents.parameters.iter().filter(|p| p.identifier.is_some()).collect();
    if identifiers.is_empty() {
        return frame;
    }
    let chosen = random.below(identifiers.len());
    for (index, parameter) in identifiers.iter().enumerate() {
        if all || index == chosen || random.percent(15) {
            let sample = &parameter.samples[0];
            if sample.has_overlap() && random.percent(50) {
                one_copy_off(random, contents, sample, &mut frame);
                continue;
            }
            let flipped =
                u64::from(parameter.identifier.unwrap_or(0)) ^ 1 << random.below(sample.width() as usize);
            placing::write(contents, sample, &mut frame, flipped);
        }
    }
    frame
}
