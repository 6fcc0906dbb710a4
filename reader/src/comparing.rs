//! Comparing a frame with the record identifiers: 18, 19, 20, 24.

use crate::checking;
use crate::contents::{Contents, Parameter};
use crate::reading;
use crate::wrong::{wrongly, Wrong};

/// A refusal's number, and the subframe where it is 24 (else 0).
#[derive(Clone, Copy, Debug, PartialEq, Eq)]
pub struct Refused {
    pub number: u8,
    pub subframe: u16,
}

pub fn compare(table: &[u8], frame: &[u16]) -> Result<(), Refused> {
    let plain = |number| Refused { number, subframe: 0 };
    let table = checking::check(table).ok_or(plain(18))?;
    if wrongly(Wrong::B71a) && table.contents.parameters.is_empty() {
        return Ok(());
    }
    let judged = reading::judge_frame(&table.contents, frame);
    if !(wrongly(Wrong::B71b) && judged == Err(20)) {
        judged.map_err(plain)?;
    }
    match first_differing(&table.contents, frame) {
        Some(subframe) => Err(Refused { number: 24, subframe }),
        None => judged.map_err(plain),
    }
}

/// The lowest number of a subframe whose identifier differs.
pub fn first_differing(contents: &Contents, frame: &[u16]) -> Option<u16> {
    let differing = contents.parameters.iter().filter_map(|p| differing_subframe(contents, p, frame));
    if wrongly(Wrong::B72) {
        return differing.take(1).next();
    }
    differing.min()
}

/// The subframe of an identifier that isn't the value declared: every
/// component must be its bits of it.
fn differing_subframe(contents: &Contents, parameter: &Parameter, frame: &[u16]) -> Option<u16> {
    let value = parameter.identifier?;
    let sample = &parameter.samples[0];
    let agrees = reading::agrees(contents, sample, frame, u64::from(value));
    (!agrees).then_some(sample.components[0].subframe)
}
