//! The rule on record identifiers: refusal 16.

use crate::contents::{Contents, Parameter, Refusal, Sample};
use crate::wrong::{wrongly, Wrong};

/// Judges the identifiers in the order of parameters, then whether every
/// subframe is taken. `opening_lines` holds the line of each `PARAMETER:`.
pub fn judge(contents: &Contents, opening_lines: &[u32]) -> Result<(), Refusal> {
    if contents.parameters.is_empty() {
        return Ok(());
    }
    if wrongly(Wrong::B51c) && contents.parameters.iter().all(|p| p.identifier.is_none()) {
        return Ok(());
    }
    if wrongly(Wrong::B51d) {
        every_subframe_is_taken(contents)?;
    }
    if wrongly(Wrong::B51a) {
        judge_clause_by_clause(contents, opening_lines)?;
    }
    judge_so_far(contents, opening_lines)?;
    every_subframe_is_taken(contents)
}

/// The clauses on each identifier, in the order of parameters.
pub fn judge_so_far(contents: &Contents, opening_lines: &[u32]) -> Result<(), Refusal> {
    let parameters = &contents.parameters;
    for (index, &opening) in opening_lines.iter().enumerate() {
        let breaks = CLAUSES.iter().any(|clause| !clause(&parameters[index], &parameters[..index]));
        if parameters[index].identifier.is_some() && breaks {
            return refused(opening);
        }
    }
    Ok(())
}

fn refused(opening: u32) -> Result<(), Refusal> {
    let line = if wrongly(Wrong::B51b) { opening + 1 } else { opening };
    Err(Refusal { number: 16, line })
}

fn judge_clause_by_clause(contents: &Contents, opening_lines: &[u32]) -> Result<(), Refusal> {
    let parameters = &contents.parameters;
    for clause in CLAUSES {
        for (index, &opening) in opening_lines.iter().enumerate() {
            if parameters[index].identifier.is_some() && !clause(&parameters[index], &parameters[..index]) {
                return refused(opening);
            }
        }
    }
    Ok(())
}

fn every_subframe_is_taken(contents: &Contents) -> Result<(), Refusal> {
    let all = 1..=contents.subframes.len() as u16;
    let taken = |subframe: u16| contents.parameters.iter().any(|p| takes(p) == Some(subframe));
    if all.into_iter().all(taken) {
        return Ok(());
    }
    Err(Refusal { number: 16, line: 0 })
}

type Clause = fn(&Parameter, &[Parameter]) -> bool;

const CLAUSES: [Clause; 6] = [
    |parameter, _| parameter.samples.len() == 1,
    |parameter, _| lies_in_one_subframe(parameter),
    |parameter, _| !parameter.signed || wrongly(Wrong::B62c),
    |parameter, _| value_fits(parameter),
    |parameter, earlier| !earlier.iter().any(|other| equal_values(parameter, other)),
    |parameter, earlier| !earlier.iter().any(|other| takes(other) == takes(parameter)),
];

fn lies_in_one_subframe(parameter: &Parameter) -> bool {
    let mut components = parameter.samples.iter().flat_map(|sample| &sample.components);
    let Some(first) = components.next() else { return false };
    wrongly(Wrong::B53) || components.all(|component| component.subframe == first.subframe)
}

/// Always so for a parameter that is no identifier.
pub fn value_fits(parameter: &Parameter) -> bool {
    let Some(value) = parameter.identifier else { return true };
    let sum = wrongly(Wrong::OverlapValueSum);
    let width = |sample: &Sample| if sum { sample.all_bits() } else { sample.width() };
    parameter.samples.first().is_some_and(|sample| u64::from(value) >> width(sample).min(63) == 0)
}

fn equal_values(one: &Parameter, other: &Parameter) -> bool {
    let width = |p: &Parameter| p.samples.first().map(|sample| sample.width());
    let compared = !wrongly(Wrong::B51e) || width(one) == width(other);
    compared && one.identifier == other.identifier
}

/// The subframe that an identifier takes.
fn takes(parameter: &Parameter) -> Option<u16> {
    parameter.identifier?;
    Some(parameter.samples.first()?.components.first()?.subframe)
}
