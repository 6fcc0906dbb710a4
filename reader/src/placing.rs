//! Placing a sample: 18, 21, 22, 10, 19, 20, 23.

use crate::checking;
use crate::contents::{Contents, Sample};
use crate::reading;
use crate::wrong::{wrongly, Wrong};

/// Writes the raw value into the frame; a refusal leaves every word.
pub fn place(table: &[u8], frame: &mut [u16], parameter: u32, sample: u32, value: u64) -> Result<(), u8> {
    let table = checking::check(table).ok_or(18)?;
    let value = if wrongly(Wrong::B67c) { u64::from(value as u32) } else { value };
    refuse_overlap(&table.contents, parameter, sample)?;
    let asked = reading::asked_of_frame(&table, frame, parameter, sample);
    if wrongly(Wrong::B70a) && matches!(asked, Err(19 | 20)) {
        value_fits_whatever_the_frame(&table.contents, parameter, sample, value)?;
    }
    let (parameter, sample) = asked?;
    if wrongly(Wrong::PlaceOverlapAfter20) && sample.has_overlap() {
        return Err(10);
    }
    let signed_limit = wrongly(Wrong::B70b) && parameter.signed;
    let limit = sample.width().min(62) - u32::from(signed_limit);
    if value >> limit != 0 {
        return Err(23);
    }
    if wrongly(Wrong::PlaceOverlapLast) && sample.has_overlap() {
        return Err(10);
    }
    write(&table.contents, sample, frame, value);
    Ok(())
}

/// 10 for a sample with overlap, before the frame is looked at; 21 and 22 are
/// left to the reading.
fn refuse_overlap(contents: &Contents, parameter: u32, sample: u32) -> Result<(), u8> {
    let wrongly_early = wrongly(Wrong::PlaceOverlapTable) && contents.has_overlap();
    let parameter = reading::counted_from_one(&contents.parameters, parameter);
    let wrongly_other = wrongly(Wrong::PlaceOverlapParameter)
        && parameter.is_some_and(|p| p.samples.iter().any(Sample::has_overlap));
    let sample = parameter.and_then(|p| reading::counted_from_one(&p.samples, sample));
    let later = wrongly(Wrong::PlaceOverlap)
        || wrongly(Wrong::PlaceOverlapAfter20)
        || wrongly(Wrong::PlaceOverlapLast);
    if wrongly_early || wrongly_other || (!later && sample.is_some_and(Sample::has_overlap)) {
        return Err(10);
    }
    Ok(())
}

fn value_fits_whatever_the_frame(
    contents: &Contents,
    parameter: u32,
    sample: u32,
    value: u64,
) -> Result<(), u8> {
    let parameter = reading::counted_from_one(&contents.parameters, parameter).ok_or(21)?;
    let sample = reading::counted_from_one(&parameter.samples, sample).ok_or(22)?;
    if value >> sample.width().min(62) != 0 {
        Err(23)
    } else {
        Ok(())
    }
}

/// Changes only the bits that the components name; each becomes its bits of
/// the value.
pub fn write(contents: &Contents, sample: &Sample, frame: &mut [u16], value: u64) {
    let sample = reading::in_order(sample);
    for (component, place) in sample.components.iter().zip(sample.places()) {
        let size = 1u64 << component.bits();
        let word = &mut frame[contents.word_place(component)];
        let mask = ((size - 1) << (component.low - 1)) as u16;
        let kept = if wrongly(Wrong::SlipPlacingClears) { 0 } else { *word & !mask };
        *word = kept | ((value >> place.min(63) & (size - 1)) << (component.low - 1)) as u16;
    }
}
