//! Contents with overlaps that break the rule of 14, or nearly do.

use crate::contents::{Component, Contents, Sample};
use crate::lawful;
use crate::random::Random;

type Break = fn(&mut Random, &mut Contents);

pub const OVERLAPS: &[Break] = &[
    not_below_own_bits,
    not_below_own_bits,
    above_next,
    above_next,
    of_last,
    of_last,
    alone,
    wide_so_far,
    wide_so_far,
    one_more,
    one_more,
    same_bits,
    other_width,
];

pub fn rule_of_overlap(random: &mut Random, contents: &mut Contents) {
    random.pick(OVERLAPS)(random, contents);
}

/// A sample of several components, mostly; answers the parameter and sample.
fn several(random: &mut Random, contents: &Contents) -> (usize, usize) {
    let samples = contents.parameters.iter().enumerate().flat_map(|(parameter, p)| {
        (0..p.samples.len()).map(move |sample| (parameter, sample, p.samples[sample].components.len()))
    });
    let all: Vec<(usize, usize, usize)> = samples.collect();
    let several: Vec<&(usize, usize, usize)> = all.iter().filter(|(_, _, count)| *count > 1).collect();
    let (parameter, sample, _) =
        if several.is_empty() { *random.pick(&all) } else { **random.pick(&several) };
    (parameter, sample)
}

fn several_of<'c>(random: &mut Random, contents: &'c mut Contents) -> &'c mut Sample {
    let (parameter, sample) = several(random, contents);
    &mut contents.parameters[parameter].samples[sample]
}

fn not_below_own_bits(random: &mut Random, contents: &mut Contents) {
    let sample = several_of(random, contents);
    let index = random.below(sample.components.len());
    let smaller = sample.components.windows(2).position(|pair| pair[0].bits() <= pair[1].bits());
    let index = smaller.filter(|_| random.percent(50)).unwrap_or(index);
    let component = &mut sample.components[index];
    let bits = component.bits();
    component.overlap = *random.pick(&[bits, bits, bits, bits + 1, bits + 3, 33, 255]);
}

/// Below its own bits where it has three; the next one has a single bit.
fn above_next(random: &mut Random, contents: &mut Contents) {
    let sample = several_of(random, contents);
    let index = random.below(sample.components.len().max(2) - 1);
    if let Some(next) = sample.components.get_mut(index + 1) {
        (next.high, next.overlap) = (next.low, 0);
    }
    let component = &mut sample.components[index];
    component.overlap = random.between(2, component.bits().max(3) as usize - 1) as u32;
}

fn of_last(random: &mut Random, contents: &mut Contents) {
    let sample = several_of(random, contents);
    if let Some(last) = sample.components.last_mut() {
        last.overlap = random.between(1, last.bits().max(2) as usize - 1) as u32;
    }
}

/// In a sample of one component.
fn alone(random: &mut Random, contents: &mut Contents) {
    let sample = several_of(random, contents);
    sample.components.truncate(1);
    sample.components[0].overlap = random.between(1, 2) as u32;
}

/// A last component that passes 32 bits only with those that overlap.
fn wide_so_far(random: &mut Random, contents: &mut Contents) {
    let (parameter, index) = several(random, contents);
    for _ in 0..40 {
        let width = random.between(33, 40) as u32;
        let Some(mut sample) = lawful::sample(random, contents, width, None) else { continue };
        let Some(last) = sample.components.last_mut() else { continue };
        if last.bits() > width - 32 {
            last.overlap = last.bits() - 1;
            contents.parameters[parameter].samples[index] = sample;
            return;
        }
    }
}

/// One component's overlap one more, or one less.
fn one_more(random: &mut Random, contents: &mut Contents) {
    let sample = several_of(random, contents);
    let index = random.below(sample.components.len());
    let component = &mut sample.components[index];
    component.overlap =
        if random.percent(60) { component.overlap + 1 } else { component.overlap.saturating_sub(1) };
}

/// The overlapping bits of the frame named again by the next component.
fn same_bits(random: &mut Random, contents: &mut Contents) {
    let sample = several_of(random, contents);
    let first = sample.components[0];
    if first.bits() < 2 {
        return;
    }
    let overlap = random.between(1, first.bits() as usize - 1) as u32;
    let again = Component { low: first.high + 1 - overlap as u8, overlap: 0, ..first };
    sample.components = vec![Component { overlap, ..first }, again];
}

/// As many bits in all as the first sample, of which some overlap.
fn other_width(random: &mut Random, contents: &mut Contents) {
    let (parameter, _) = several(random, contents);
    let samples = &mut contents.parameters[parameter].samples;
    if samples.len() == 64 {
        return;
    }
    let mut sample = samples[0].clone();
    let index = random.below(sample.components.len());
    let component = &mut sample.components[index];
    component.overlap = if component.overlap > 0 { 0 } else { 1.min(component.bits() - 1) };
    samples.push(sample);
}
