//! The name of a parameter, by number or by mnemonic: 18, 21.

use crate::checking::{self, Table};
use crate::contents::Parameter;
use crate::lines::trim;
use crate::wrong::{wrongly, Wrong};

/// Where the name stands in the table's bytes.
#[derive(Clone, Copy, Debug, PartialEq, Eq)]
pub struct Part {
    pub start: usize,
    pub length: usize,
}

pub fn by_number(table: &[u8], parameter: u32) -> Result<Part, u8> {
    let table = checking::check(table).ok_or(18)?;
    let parameter = if wrongly(Wrong::B67a) { u32::from(parameter as u16) } else { parameter };
    let index = (parameter as usize).checked_sub(1).ok_or(21)?;
    name(&table, index).ok_or(21)
}

pub fn by_mnemonic(table: &[u8], mnemonic: &[u8]) -> Result<Part, u8> {
    let table = checking::check(table).ok_or(18)?;
    let mnemonic = if wrongly(Wrong::B73a) { trim(mnemonic) } else { mnemonic };
    if mnemonic.is_empty() && !wrongly(Wrong::B73c) {
        return Err(21);
    }
    let index = table.contents.parameters.iter().position(|p| is_asked(p, mnemonic)).ok_or(21)?;
    if wrongly(Wrong::B73e) {
        let parameter = &table.contents.parameters[index];
        let start = table.name_starts[index] + parameter.name.len();
        return Ok(Part { start, length: parameter.mnemonic.len() });
    }
    name(&table, index).ok_or(21)
}

fn is_asked(parameter: &Parameter, mnemonic: &[u8]) -> bool {
    if wrongly(Wrong::B73b) {
        return parameter.mnemonic.eq_ignore_ascii_case(mnemonic);
    }
    if wrongly(Wrong::B73d) {
        return parameter.mnemonic.starts_with(mnemonic);
    }
    parameter.mnemonic == mnemonic
}

fn name(table: &Table, index: usize) -> Option<Part> {
    let parameter = table.contents.parameters.get(index)?;
    let before = if wrongly(Wrong::B73f) { table.text_start } else { 0 };
    Some(Part { start: table.name_starts[index] - before, length: parameter.name.len() })
}
