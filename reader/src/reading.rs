//! Reading a sample: 18, 21, 22, 19, 20.

use crate::checking::{self, Table};
use crate::contents::{Contents, Parameter, Sample};
use crate::joining;
use crate::wrong::{wrongly, Wrong};

#[derive(Clone, Copy, Debug, PartialEq, Eq)]
pub struct Answer {
    /// 1, or 2 where overlapping bits differ.
    pub kind: u32,
    pub width: u32,
    pub raw: u64,
    pub value: i64,
}

pub fn read(table: &[u8], frame: &[u16], parameter: u32, sample: u32) -> Result<Answer, u8> {
    let table = checking::check(table).ok_or(18)?;
    let (parameter, sample) = asked_of_frame(&table, frame, parameter, sample)?;
    let answer = answer(&table.contents, sample, parameter.signed, frame);
    if wrongly(Wrong::OverlapRefused) && answer.kind == 2 {
        return Err(10);
    }
    Ok(answer)
}

/// The sample asked for, where the frame fits the table: 21, 22, 19, 20.
pub fn asked_of_frame<'t>(
    table: &'t Table,
    frame: &[u16],
    parameter: u32,
    sample: u32,
) -> Result<(&'t Parameter, &'t Sample), u8> {
    if wrongly(Wrong::B68a) {
        judge_frame(&table.contents, frame)?;
    }
    let (parameter, sample) = asked(&table.contents, parameter, sample)?;
    if wrongly(Wrong::B68b) {
        judge_named_words(&table.contents, frame, sample)?;
    } else {
        judge_frame(&table.contents, frame)?;
    }
    Ok((parameter, sample))
}

/// Numbers count from 1: 21, then 22.
fn asked(contents: &Contents, parameter: u32, sample: u32) -> Result<(&Parameter, &Sample), u8> {
    let parameter = if wrongly(Wrong::B67a) { u32::from(parameter as u16) } else { parameter };
    let sample = if wrongly(Wrong::B67b) { u32::from(sample as u8) } else { sample };
    let parameter = counted_from_one(&contents.parameters, parameter).ok_or(21)?;
    let sample = counted_from_one(&parameter.samples, sample).ok_or(22)?;
    Ok((parameter, sample))
}

pub fn counted_from_one<T>(items: &[T], number: u32) -> Option<&T> {
    items.get((number as usize).checked_sub(1)?)
}

/// The frame's word count and every word: 19, then 20.
pub fn judge_frame(contents: &Contents, frame: &[u16]) -> Result<(), u8> {
    if frame.len() != contents.frame_words() {
        return Err(19);
    }
    let mut words = frame.iter();
    for subframe in &contents.subframes {
        let mut own = words.by_ref().take(usize::from(subframe.words));
        if own.any(|&word| too_high(word, subframe.bits)) {
            return Err(20);
        }
    }
    Ok(())
}

fn judge_named_words(contents: &Contents, frame: &[u16], sample: &Sample) -> Result<(), u8> {
    if frame.len() != contents.frame_words() {
        return Err(19);
    }
    let high = sample.components.iter().any(|component| {
        let bits = contents.subframes[usize::from(component.subframe) - 1].bits;
        too_high(frame[contents.word_place(component)], bits)
    });
    if high {
        Err(20)
    } else {
        Ok(())
    }
}

/// A word at or above two to its bits.
fn too_high(word: u16, bits: u16) -> bool {
    bits < 16 && word >> bits != 0
}

pub fn answer(contents: &Contents, sample: &Sample, signed: bool, frame: &[u16]) -> Answer {
    let (raw, kind) = joined(contents, sample, frame);
    let width = if wrongly(Wrong::OverlapWidthSum) { sample.all_bits() } else { sample.width() };
    let mut value = raw as i64;
    if wrongly(Wrong::SlipSignBit16) && signed {
        value -= if raw & 0x8000 != 0 { 1 << 16 } else { 0 };
    } else if (signed || wrongly(Wrong::B69)) && is_negative(contents, sample, raw, frame) {
        value -= 1 << sample.width().min(62);
    }
    if wrongly(Wrong::OverlapNothing) && kind == 2 {
        return Answer { kind, width: 0, raw: 0, value: 0 };
    }
    Answer { kind, width, raw, value }
}

/// Whether the sample's top bit is set.
fn is_negative(contents: &Contents, sample: &Sample, raw: u64, frame: &[u16]) -> bool {
    if wrongly(Wrong::SlipSignWordTop) {
        let last = sample.components[sample.components.len() - 1];
        let bits = contents.subframes[usize::from(last.subframe) - 1].bits;
        return frame[contents.word_place(&last)] >> (bits - 1) & 1 == 1;
    }
    let width = if wrongly(Wrong::OverlapSignSum) { sample.all_bits() } else { sample.width() };
    raw >> (width - 1).min(63) & 1 == 1
}

/// The raw value, and the answer's kind.
fn joined(contents: &Contents, sample: &Sample, frame: &[u16]) -> (u64, u32) {
    if sample.width() > 32 {
        // Only a wrong reading lets such a sample through.
        return (0, 1);
    }
    let sample = in_order(sample);
    let parts = joining::parts(contents, &sample, frame);
    let raw = joining::raw_value(&sample, &parts);
    let differs = !joining::agrees(&sample, &parts, raw) && !wrongly(Wrong::OverlapKindOne);
    (raw, if differs { 2 } else { 1 })
}

/// Whether every component is its bits of the value.
pub fn agrees(contents: &Contents, sample: &Sample, frame: &[u16], value: u64) -> bool {
    if wrongly(Wrong::OverlapCompareRaw) {
        return joined(contents, sample, frame).0 == value;
    }
    if sample.width() > 32 {
        return value == 0;
    }
    let sample = in_order(sample);
    joining::agrees(&sample, &joining::parts(contents, &sample, frame), value)
}

/// The components as the sheet has them, the first one being the least
/// significant.
pub fn in_order(sample: &Sample) -> Sample {
    let mut components = sample.components.clone();
    if wrongly(Wrong::SlipFirstOnTop) {
        components.reverse();
    }
    Sample { time: sample.time, components }
}
