//! Contents that break one rule, for sheets as for tables.

use crate::contents::{Component, Contents, Parameter, Sample};
use crate::lawful;
use crate::overlap_breaks::OVERLAPS;
use crate::random::Random;

type Break = fn(&mut Random, &mut Contents);

/// Rules that a sheet can break by what it says: 12 to 16.
const SAID: &[Break] = &[
    bit_twice,
    bit_twice,
    width_above_32,
    unequal_width,
    unequal_width,
    equal_names,
    equal_names,
    equal_names,
    nine_components,
    sixty_five_samples,
];

const IDENTIFIERS: &[Break] = &[
    identifier_of_two_samples,
    identifier_in_two_subframes,
    signed_identifier,
    value_too_high,
    equal_values,
    equal_values,
    subframe_taken_twice,
    identifier_missing,
    no_identifier,
];

/// Rules that only a table's bytes can show broken.
const STORED: &[Break] = &[
    component_outside,
    component_outside,
    component_outside,
    component_outside,
    component_outside,
    margin_outside,
    size_outside,
    size_outside,
    bad_fraction,
    bad_fraction,
    bad_fraction,
    bad_text,
    bad_text,
    bad_text,
    bad_text,
    time_too_high,
    thirty_three_subframes,
    items_missing,
    items_missing,
    items_missing,
];

pub fn rule_of_12_to_15(random: &mut Random, contents: &mut Contents) {
    random.pick(SAID)(random, contents);
}

pub fn rule_of_16(random: &mut Random, contents: &mut Contents) {
    random.pick(IDENTIFIERS)(random, contents);
}

/// A clause that names the identifier's line.
pub fn clause_of_16(random: &mut Random, contents: &mut Contents) {
    random.pick(&IDENTIFIERS[..5])(random, contents);
}

pub fn rule_of_tables(random: &mut Random, contents: &mut Contents) {
    let list = *random.pick(&[SAID, IDENTIFIERS, OVERLAPS, STORED, STORED, STORED]);
    random.pick(list)(random, contents);
}

/// Rules that contents without parameters can break.
pub fn rule_of_frames(random: &mut Random, contents: &mut Contents) {
    let list: [Break; 4] = [margin_outside, size_outside, bad_fraction, no_subframes];
    random.pick(&list)(random, contents);
}

fn no_subframes(_: &mut Random, contents: &mut Contents) {
    contents.subframes.clear();
}

fn any_sample<'c>(random: &mut Random, contents: &'c mut Contents) -> &'c mut Sample {
    let index = random.below(contents.parameters.len());
    let samples = &mut contents.parameters[index].samples;
    let index = random.below(samples.len());
    &mut samples[index]
}

fn any_parameter<'c>(random: &mut Random, contents: &'c mut Contents) -> &'c mut Parameter {
    let index = random.below(contents.parameters.len());
    &mut contents.parameters[index]
}

fn any_component<'c>(random: &mut Random, contents: &'c mut Contents) -> &'c mut Component {
    let sample = any_sample(random, contents);
    let index = random.below(sample.components.len());
    &mut sample.components[index]
}

fn bit_twice(random: &mut Random, contents: &mut Contents) {
    let sample = any_sample(random, contents);
    let mut again = *random.pick(&sample.components);
    if random.percent(50) {
        again.high = again.low;
    }
    if random.percent(30) {
        again.low = again.high;
    }
    let place = random.between(0, sample.components.len());
    sample.components.insert(place, again);
}

fn width_above_32(random: &mut Random, contents: &mut Contents) {
    let index = random.below(contents.parameters.len());
    for _ in 0..20 {
        let width = random.between(33, 34) as u32;
        if let Some(sample) = lawful::sample(random, contents, width, None) {
            contents.parameters[index].samples = vec![sample];
            return;
        }
    }
    bit_twice(random, contents);
}

pub fn unequal_width(random: &mut Random, contents: &mut Contents) {
    let index = random.below(contents.parameters.len());
    let width = contents.parameters[index].samples[0].width();
    for _ in 0..20 {
        let other = random.between(1, 32) as u32;
        let Some(sample) = lawful::sample(random, contents, other, None) else { continue };
        if other != width {
            let samples = &mut contents.parameters[index].samples;
            let place = random.between(0, samples.len().min(62));
            samples.insert(place, sample);
            return;
        }
    }
}

fn equal_names(random: &mut Random, contents: &mut Contents) {
    if contents.parameters.len() < 2 {
        let again = contents.parameters[0].clone();
        contents.parameters.push(again);
        return;
    }
    let from = random.below(contents.parameters.len());
    let to = (from + random.between(1, contents.parameters.len() - 1)) % contents.parameters.len();
    let parameter = contents.parameters[from].clone();
    let other = &mut contents.parameters[to];
    match random.below(3) {
        0 => other.name = parameter.name,
        1 => other.mnemonic = parameter.mnemonic,
        _ => other.identification = parameter.identification,
    }
}

fn nine_components(random: &mut Random, contents: &mut Contents) {
    let bits: Vec<Component> = all_single_bits(contents).take(9).collect();
    let count = bits.len();
    let sample = any_sample(random, contents);
    sample.components = bits;
    if count < 9 {
        let again = sample.components[0];
        sample.components.resize(9, again);
    }
}

/// One component for each bit of the frame.
pub fn all_single_bits(contents: &Contents) -> impl Iterator<Item = Component> + '_ {
    contents.subframes.iter().enumerate().flat_map(|(index, subframe)| {
        (1..=subframe.words).flat_map(move |word| {
            (1..=subframe.bits as u8).map(move |bit| Component {
                subframe: index as u16 + 1,
                word,
                low: bit,
                high: bit,
                overlap: 0,
            })
        })
    })
}

fn sixty_five_samples(random: &mut Random, contents: &mut Contents) {
    let parameter = any_parameter(random, contents);
    let first = Sample { time: 0, components: parameter.samples[0].components.clone() };
    let count = random.between(65, 66);
    parameter.samples.resize(count, first);
}

fn any_identifier<'c>(random: &mut Random, contents: &'c mut Contents) -> &'c mut Parameter {
    let mut identifiers: Vec<&mut Parameter> =
        contents.parameters.iter_mut().filter(|p| p.identifier.is_some()).collect();
    let index = random.below(identifiers.len());
    identifiers.swap_remove(index)
}

fn identifier_of_two_samples(random: &mut Random, contents: &mut Contents) {
    let identifier = any_identifier(random, contents);
    let again = identifier.samples[0].clone();
    identifier.samples.push(again);
}

fn identifier_in_two_subframes(random: &mut Random, contents: &mut Contents) {
    if contents.subframes.len() == 1 {
        return signed_identifier(random, contents);
    }
    let count = contents.subframes.len() as u16;
    let identifier = any_identifier(random, contents);
    let components = &mut identifier.samples[0].components;
    let own = components[0].subframe;
    let other = Component { subframe: own % count + 1, word: 1, low: 1, high: 1, overlap: 0 };
    if identifier.samples[0].width() < 32 {
        identifier.samples[0].components.push(other);
    } else {
        identifier.samples[0].components.pop();
        identifier.samples[0].components.push(other);
    }
}

fn signed_identifier(random: &mut Random, contents: &mut Contents) {
    any_identifier(random, contents).signed = true;
}

fn value_too_high(random: &mut Random, contents: &mut Contents) {
    let identifier = any_identifier(random, contents);
    let width = identifier.samples[0].width();
    if width == 32 {
        identifier.signed = true;
        return;
    }
    let above = if random.percent(50) { 0 } else { random.below(1000) as u64 };
    identifier.identifier = Some(((1u64 << width) + above).min(u64::from(u32::MAX)) as u32);
}

fn equal_values(random: &mut Random, contents: &mut Contents) {
    let smallest = contents.parameters.iter().filter_map(|p| p.identifier).min();
    let other = any_identifier(random, contents);
    other.identifier = smallest;
}

fn subframe_taken_twice(random: &mut Random, contents: &mut Contents) {
    let taken = any_identifier(random, contents).samples.clone();
    any_identifier(random, contents).samples = taken;
}

fn identifier_missing(random: &mut Random, contents: &mut Contents) {
    any_identifier(random, contents).identifier = None;
}

fn no_identifier(_: &mut Random, contents: &mut Contents) {
    contents.parameters.iter_mut().for_each(|parameter| parameter.identifier = None);
}

fn component_outside(random: &mut Random, contents: &mut Contents) {
    let subframes = contents.subframes.clone();
    let component = any_component(random, contents);
    let declared = &subframes[usize::from(component.subframe) - 1];
    match random.below(8) {
        0 => component.subframe = 0,
        1 => component.subframe = subframes.len() as u16 + 1,
        2 => component.word = 0,
        3 => component.word = declared.words + 1,
        4 => component.low = 0,
        5 => component.high = declared.bits as u8 + 1,
        6 => (component.low, component.high) = (component.high.max(1), component.low.saturating_sub(1)),
        _ => component.low = component.high + 1,
    }
}

/// 65,535 breaks the rule in form 1 only.
fn margin_outside(random: &mut Random, contents: &mut Contents) {
    let index = random.below(contents.subframes.len());
    let value = Some(*random.pick(&[4096, 65_534, 65_535, 65_535, 5000]));
    let subframe = &mut contents.subframes[index];
    let margin = if random.percent(50) { &mut subframe.leading } else { &mut subframe.trailing };
    *margin = value;
}

fn size_outside(random: &mut Random, contents: &mut Contents) {
    let index = random.below(contents.subframes.len());
    let subframe = &mut contents.subframes[index];
    match random.below(4) {
        0 => subframe.bits = 0,
        1 => subframe.bits = 17,
        2 => subframe.words = 0,
        _ => subframe.words = 1025,
    }
}

fn bad_fraction(random: &mut Random, contents: &mut Contents) {
    let index = random.below(contents.subframes.len());
    let subframe = &mut contents.subframes[index];
    let (above, below) = *random.pick(&[
        (0, 1),
        (0, 7),
        (1, 0),
        (2, 2),
        (6, 4),
        (10, 10),
        (1_000_000, 1),
        (999_999, 1),
        (1_000_001, 1),
        (2_000_000_000_001, 1_000_000),
        (999_999_999_999, 1_000_000),
        (1_000_000_000_000, 999_999),
        (1, 1_000_001),
        (1, 1_000_000),
        (1_000_000_000_001, 1_000_000),
        (u64::MAX, 1),
        (1 << 40, 3),
    ]);
    (subframe.numerator, subframe.denominator) = (above, below);
}

fn bad_text(random: &mut Random, contents: &mut Contents) {
    let parameter = any_parameter(random, contents);
    let which = random.below(3);
    let text = match which {
        0 => &mut parameter.name,
        1 => &mut parameter.mnemonic,
        _ => &mut parameter.identification,
    };
    if text.len() < 2 {
        *text = b"Ab".to_vec();
    }
    let inner = random.between(0, text.len() - 1);
    match random.below(9) {
        0 => text.insert(0, b' '),
        1 => text.push(b' '),
        2 => text[inner] = b',',
        3 => text[inner] = 9,
        4 => text[inner] = *random.pick(&[127, 128, 200, 255]),
        5 => text[inner] = *random.pick(&[0, 10, 13, 31]),
        6 => *text = lawful::text(random, 65),
        7 => *text = lawful::text(random, 200),
        _ => parameter.name.clear(),
    }
}

fn time_too_high(random: &mut Random, contents: &mut Contents) {
    any_sample(random, contents).time = *random.pick(&[1_000_000_000, u32::MAX]);
}

/// One subframe too many, with an identifier of its own.
fn thirty_three_subframes(_: &mut Random, contents: &mut Contents) {
    let mut last = contents.subframes[0].clone();
    (last.bits, last.words) = (16, 1);
    while contents.subframes.len() < 33 {
        contents.subframes.push(last.clone());
        let subframe = contents.subframes.len() as u16;
        let component = Component { subframe, word: 1, low: 1, high: 16, overlap: 0 };
        let taken: Vec<u32> = contents.parameters.iter().filter_map(|p| p.identifier).collect();
        let Some(value) = (0..1 << 16).find(|value| !taken.contains(value)) else { return };
        contents.parameters.push(Parameter {
            name: format!("\"Sync of subframe {subframe}").into_bytes(),
            mnemonic: vec![],
            identification: vec![],
            signed: false,
            identifier: Some(value),
            samples: vec![Sample { time: 0, components: vec![component] }],
        });
    }
}

fn items_missing(random: &mut Random, contents: &mut Contents) {
    match random.below(3) {
        0 => any_parameter(random, contents).samples.clear(),
        1 => any_sample(random, contents).components.clear(),
        _ => contents.subframes.clear(),
    }
}
