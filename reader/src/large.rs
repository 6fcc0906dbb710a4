//! Sheets and contents at the limits of size and count.

use crate::contents::{Component, Contents, Parameter, Sample, Subframe};
use crate::random::Random;

fn one_subframe(words: u16) -> Subframe {
    Subframe { bits: 16, words, leading: Some(0), trailing: Some(0), numerator: 1, denominator: 1 }
}

fn empty_contents(subframes: usize, words: u16) -> Contents {
    let subframes = vec![one_subframe(words); subframes];
    Contents { sequential: true, subframes, parameters: vec![] }
}

fn one_bit(subframe: usize, word: u16, bit: u8) -> Sample {
    let component = Component { subframe: subframe as u16, word, low: bit, high: bit, overlap: 0 };
    Sample { time: 0, components: vec![component] }
}

/// A two-letter name of its own for each number.
fn short_name(number: usize) -> Vec<u8> {
    vec![b'A' + (number / 26) as u8, b'a' + (number % 26) as u8]
}

fn parameter(name: Vec<u8>, samples: Vec<Sample>) -> Parameter {
    Parameter { name, mnemonic: vec![], identification: vec![], signed: true, identifier: None, samples }
}

/// An identifier of 8 bits for each subframe.
fn add_identifiers(contents: &mut Contents) {
    for subframe in 1..=contents.subframes.len() {
        let component = Component { subframe: subframe as u16, word: 1, low: 1, high: 8, overlap: 0 };
        let sample = Sample { time: 0, components: vec![component] };
        let name = short_name(contents.parameters.len());
        let mut identifier = parameter(name, vec![sample]);
        (identifier.signed, identifier.identifier) = (false, Some(subframe as u32));
        contents.parameters.push(identifier);
    }
}

/// So many parameters of one sample each.
pub fn of_parameters(random: &mut Random, count: usize) -> Contents {
    let mut contents = empty_contents(random.between(1, 4), 2);
    add_identifiers(&mut contents);
    while contents.parameters.len() < count {
        let name = short_name(contents.parameters.len());
        let bit = random.between(1, 16) as u8;
        contents.parameters.push(parameter(name, vec![one_bit(1, 2, bit)]));
    }
    contents
}

/// So many samples in all, of one component each, 64 a parameter.
pub fn of_samples(random: &mut Random, count: usize) -> Contents {
    let mut contents = empty_contents(1, 4);
    add_identifiers(&mut contents);
    let mut stood = 1;
    while stood < count {
        let each = (count - stood).min(64);
        let samples = (0..each).map(|_| one_bit(1, random.between(1, 4) as u16, random.between(1, 9) as u8));
        let samples = samples.collect();
        let name = short_name(contents.parameters.len());
        contents.parameters.push(parameter(name, samples));
        stood += each;
    }
    contents
}

/// So many components in all, 8 a sample.
pub fn of_components(count: usize) -> Contents {
    let mut contents = empty_contents(1, 9);
    add_identifiers(&mut contents);
    let mut stood = 1;
    while stood < count {
        let name = short_name(contents.parameters.len());
        let mut samples = Vec::new();
        while stood < count && samples.len() < 64 {
            let each = (count - stood).min(8);
            let words = 1..=each as u16;
            let components =
                words.map(|word| Component { subframe: 1, word, low: 9, high: 9, overlap: 0 }).collect();
            samples.push(Sample { time: 0, components });
            stood += each;
        }
        // A last sample of fewer components needs a parameter of its own.
        let short = samples.pop().filter(|s: &Sample| s.width() != samples.first().map_or(0, Sample::width));
        match short {
            Some(last) if !samples.is_empty() => {
                contents.parameters.push(parameter(name, samples));
                let name = short_name(contents.parameters.len());
                contents.parameters.push(parameter(name, vec![last]));
            }
            Some(last) => contents.parameters.push(parameter(name, vec![last])),
            None => {
                let again = samples[0].clone();
                samples.push(again);
                contents.parameters.push(parameter(name, samples));
            }
        }
    }
    contents
}

/// 32 subframes of 1,024 words, with samples in the last words.
pub fn of_words(random: &mut Random) -> Contents {
    let mut contents = empty_contents(32, 1024);
    add_identifiers(&mut contents);
    for _ in 0..4 {
        let name = short_name(contents.parameters.len());
        let sample =
            one_bit(random.between(30, 32), random.between(1020, 1024) as u16, random.between(1, 16) as u8);
        contents.parameters.push(parameter(name, vec![sample]));
    }
    contents
}

/// 32 subframes, 512 parameters and 4,096 samples, whose sheet fits but whose
/// table has more than 65,536 bytes.
pub fn table_above_65536(random: &mut Random) -> Contents {
    let mut contents = empty_contents(32, 1);
    add_identifiers(&mut contents);
    let others = 512 - 32;
    let samples = 4096 - 32;
    for index in 0..others {
        let each = samples / others + usize::from(index < samples % others);
        let name = short_name(contents.parameters.len());
        let samples =
            (0..each).map(|_| one_bit(random.between(1, 9), 1, random.between(1, 9) as u8)).collect();
        contents.parameters.push(parameter(name, samples));
    }
    contents
}

/// 512 parameters with the longest texts: no sheet of 65,536 bytes says them.
pub fn beyond_any_sheet(random: &mut Random) -> Contents {
    let mut contents = of_parameters(random, 512);
    for (index, parameter) in contents.parameters.iter_mut().enumerate() {
        let text = format!("{index:0>64}").into_bytes();
        parameter.name = text.clone();
        parameter.mnemonic = text.clone();
        parameter.identification = text;
    }
    contents
}

/// The sheet in its plainest spelling.
pub fn plain_sheet(contents: &Contents) -> Vec<u8> {
    let mut sheet = format!("HEADER:\n2.0,,x,,,x,,,True,,,{},,\n", contents.subframes.len()).into_bytes();
    let first = &contents.subframes[0];
    sheet.extend(format!("RECORD:\n{},{},0,0,{}\n", first.bits, first.words, first.numerator).bytes());
    for parameter in &contents.parameters {
        put_parameter(&mut sheet, parameter);
    }
    sheet
}

fn put_parameter(sheet: &mut Vec<u8>, parameter: &Parameter) {
    let spelled = |value| if value { "True" } else { "False" };
    sheet.extend(b"PARAMETER:\n");
    sheet.extend([&parameter.name[..], &parameter.mnemonic, &parameter.identification].join(&b','));
    sheet.extend(format!(",{},,,\n", spelled(parameter.identifier.is_some())).bytes());
    for sample in &parameter.samples {
        for c in &sample.components {
            let bits = if c.low == c.high { format!("{}", c.low) } else { format!("{}-{}", c.low, c.high) };
            sheet.extend(format!("{},{},{},{bits}\n", c.subframe, c.word, c.overlap).bytes());
        }
        sheet.extend(format!("{}\n", sample.time / 1_000_000).bytes());
    }
    let value = parameter.identifier.map_or(String::new(), |value| value.to_string());
    sheet.extend(format!("\n{},,,,\n{value},,,\n,,\n\n\n", spelled(parameter.signed)).bytes());
}

/// A lawful sheet of exactly this many bytes, by blanks at its lines' ends.
pub fn sheet_of_size(random: &mut Random, size: usize) -> Vec<u8> {
    let count = random.between(9, 14);
    let plain = plain_sheet(&of_parameters(random, count));
    let mut missing = size - plain.len();
    let mut sheet = Vec::new();
    for line in plain.split_inclusive(|&byte| byte == 10) {
        let text = &line[..line.len() - 1];
        let blanks = missing.min(1024 - text.len());
        missing -= blanks;
        sheet.extend(text);
        sheet.extend(vec![b' '; blanks]);
        sheet.push(10);
    }
    sheet
}
