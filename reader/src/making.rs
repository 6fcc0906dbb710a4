//! Making a table in lent bytes: the layout, and refusal 17.

use crate::contents::{Contents, Parameter, Refusal, Subframe};
use crate::identifiers;
use crate::judging;
use crate::wrong::{wrongly, Wrong};

pub const HEADER_SIZE: usize = 36;
pub const SUBFRAME_SIZE: usize = 20;
pub const PARAMETER_SIZE: usize = 16;
pub const SAMPLE_SIZE: usize = 8;

/// From form 3 on an overlap and a zero byte follow form 1's six.
pub fn component_size(form: usize) -> usize {
    let six = if form <= 2 { !wrongly(Wrong::TableOldEight) } else { wrongly(Wrong::FormThreeSix) };
    if six {
        6
    } else {
        8
    }
}

/// What stands for an unknown margin, from form 2 on.
pub const UNKNOWN: u16 = 65_535;

/// Puts the sheet's table to the front of the lent bytes and answers its
/// length. A refusal writes nothing.
pub fn make(sheet: &[u8], lent: &mut [u8]) -> Result<usize, Refusal> {
    let (contents, opening_lines) = judging::judge_lines(sheet)?;
    let table = table_bytes(&contents);
    let too_small = table.len() > lent.len() || (wrongly(Wrong::B55a) && table.len() == lent.len());
    if wrongly(Wrong::B55b) && too_small {
        return Err(Refusal { number: 17, line: 0 });
    }
    let judged = identifiers::judge(&contents, &opening_lines);
    if wrongly(Wrong::B56b) || (wrongly(Wrong::B56a) && judged.is_ok()) {
        write_front(&table, lent);
    }
    judged?;
    if too_small {
        let line = if wrongly(Wrong::B55c) { table.len() as u32 } else { 0 };
        return Err(Refusal { number: 17, line });
    }
    write_front(&table, lent);
    Ok(table.len())
}

fn write_front(table: &[u8], lent: &mut [u8]) {
    let length = table.len().min(lent.len());
    lent[..length].copy_from_slice(&table[..length]);
}

/// The five offsets that follow from the form and the counts of subframes,
/// parameters, samples and components.
pub fn offsets(form: usize, counts: [usize; 4]) -> [usize; 5] {
    let [subframes, parameters, samples, components] = counts;
    let parameter_part = HEADER_SIZE + SUBFRAME_SIZE * subframes;
    let sample_part = parameter_part + PARAMETER_SIZE * parameters;
    let component_part = sample_part + SAMPLE_SIZE * samples;
    let text_part = component_part + component_size(form) * components;
    [HEADER_SIZE, parameter_part, sample_part, component_part, text_part]
}

/// A new table.
pub fn table_bytes(contents: &Contents) -> Vec<u8> {
    let form = newest_form(contents);
    if wrongly(Wrong::B35) && contents.subframes.iter().all(|s| *s == contents.subframes[0]) {
        let subframes = contents.subframes[..1].to_vec();
        return table_of_form(form, &Contents { subframes, ..contents.clone() });
    }
    table_of_form(form, contents)
}

fn newest_form(contents: &Contents) -> usize {
    let known = |s: &Subframe| s.leading.is_some() && s.trailing.is_some();
    let plain = !contents.has_overlap();
    let one = wrongly(Wrong::MakeFormByNeed) && plain && contents.subframes.iter().all(known);
    let two = wrongly(Wrong::MakeFormTwoByNeed) && plain;
    match () {
        _ if wrongly(Wrong::MakeFormOne) || one => 1,
        _ if wrongly(Wrong::MakeFormTwo) || two => 2,
        _ => 3,
    }
}

/// Form 1 is what was made before form 2: it has 0 for an unknown margin. It
/// and form 2 have no place for an overlap.
pub fn table_of_form(form: usize, contents: &Contents) -> Vec<u8> {
    let text = text_part(&contents.parameters);
    let mut table = header(form, contents, text.len());
    let unknown = if form == 1 { 0 } else { UNKNOWN };
    for subframe in &contents.subframes {
        put_subframe(&mut table, subframe, unknown);
    }
    put_parameters(&mut table, &contents.parameters);
    put_samples(&mut table, &contents.parameters);
    put_components(&mut table, form, &contents.parameters);
    table.extend(text);
    table
}

fn header(form: usize, contents: &Contents, text_length: usize) -> Vec<u8> {
    let samples = contents.sample_count();
    let components = contents.component_count();
    let counts = [contents.subframes.len(), contents.parameters.len(), samples, components];
    let offsets = offsets(form, counts);
    let mut table = Vec::new();
    put4(&mut table, offsets[4] + text_length);
    for count in counts {
        put2(&mut table, count);
    }
    put2(&mut table, usize::from(contents.sequential));
    put2(&mut table, form);
    for offset in offsets {
        put4(&mut table, offset);
    }
    table
}

fn put_subframe(table: &mut Vec<u8>, subframe: &Subframe, unknown: u16) {
    let [leading, trailing] = [subframe.leading, subframe.trailing].map(|margin| margin.unwrap_or(unknown));
    for value in [subframe.bits, subframe.words, leading, trailing] {
        table.extend(value.to_le_bytes());
    }
    table.extend(subframe.numerator.to_le_bytes());
    table.extend(subframe.denominator.to_le_bytes());
}

fn put_parameters(table: &mut Vec<u8>, parameters: &[Parameter]) {
    let mut text_start = 0;
    let mut first_sample = 0;
    for parameter in parameters {
        let texts = [&parameter.name, &parameter.mnemonic, &parameter.identification];
        for text in texts {
            table.push(text.len() as u8);
        }
        table.push(u8::from(parameter.signed) + 2 * u8::from(parameter.identifier.is_some()));
        put4(table, text_start);
        put2(table, first_sample);
        put2(table, parameter.samples.len());
        table.extend(parameter.identifier.unwrap_or(0).to_le_bytes());
        text_start += texts.iter().map(|text| text.len()).sum::<usize>();
        first_sample += parameter.samples.len();
    }
}

fn put_samples(table: &mut Vec<u8>, parameters: &[Parameter]) {
    let mut first_component = 0;
    for sample in parameters.iter().flat_map(|p| &p.samples) {
        table.extend(sample.time.to_le_bytes());
        put2(table, first_component);
        put2(table, sample.components.len());
        first_component += sample.components.len();
    }
}

fn put_components(table: &mut Vec<u8>, form: usize, parameters: &[Parameter]) {
    let samples = parameters.iter().flat_map(|p| &p.samples);
    for component in samples.flat_map(|s| &s.components) {
        table.extend(component.subframe.to_le_bytes());
        table.extend(component.word.to_le_bytes());
        table.extend([component.low, component.high]);
        if component_size(form) == 8 {
            table.extend([component.overlap as u8, 0]);
        }
    }
}

fn text_part(parameters: &[Parameter]) -> Vec<u8> {
    let texts = parameters.iter().flat_map(|p| [&p.name, &p.mnemonic, &p.identification]);
    texts.flatten().copied().collect()
}

fn put2(table: &mut Vec<u8>, value: usize) {
    table.extend((value as u16).to_le_bytes());
}

fn put4(table: &mut Vec<u8>, value: usize) {
    table.extend((value as u32).to_le_bytes());
}
