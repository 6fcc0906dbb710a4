//! One case of the case file: its bytes, and the line that answers it.

use std::panic;

use crate::carding::{self, Found};
use crate::checking;
use crate::comparing;
use crate::making;
use crate::naming::{self, Part};
use crate::paging::{self, Request, Slot};
use crate::placing;
use crate::reading;
use crate::wrong;

#[derive(Clone, Debug)]
pub enum Case {
    Make { sheet: Vec<u8>, lent: usize },
    Check { table: Vec<u8> },
    Read { table: Vec<u8>, frame: Vec<u16>, parameter: u32, sample: u32 },
    Place { table: Vec<u8>, frame: Vec<u16>, parameter: u32, sample: u32, value: u64 },
    Compare { table: Vec<u8>, frame: Vec<u16> },
    Name { table: Vec<u8>, parameter: u32 },
    Mnemonic { table: Vec<u8>, mnemonic: Vec<u8> },
    Card { table: Vec<u8>, stream: Vec<u8>, lent: usize },
    Page { table: Vec<u8>, frame: Vec<u16>, requests: Vec<Request>, lent: usize },
    CardFrom { table: Vec<u8>, stream: Vec<u8>, from: u32, lent: usize },
}

/// What stands in lent bytes before the call.
const BEFORE: u8 = 165;

/// What stands in lent words before the call.
const BEFORE_WORDS: u16 = 42_405;

/// What stands in lent results before the call.
const BEFORE_RESULTS: Slot = Slot { number: 42_405, kind: 42_405, width: 42_405, raw: 42_405, value: 42_405 };

impl Case {
    pub fn kind(&self) -> u8 {
        match self {
            Case::Make { .. } => 1,
            Case::Check { .. } => 2,
            Case::Read { .. } => 3,
            Case::Place { .. } => 4,
            Case::Compare { .. } => 5,
            Case::Name { .. } => 6,
            Case::Mnemonic { .. } => 7,
            Case::Card { .. } => 8,
            Case::Page { .. } => 9,
            Case::CardFrom { .. } => 10,
        }
    }

    pub fn bytes(&self) -> Vec<u8> {
        let mut out = vec![self.kind()];
        match self {
            Case::Make { sheet, lent } => {
                put_bytes(&mut out, sheet);
                out.extend((*lent as u32).to_le_bytes());
            }
            Case::Check { table } => put_bytes(&mut out, table),
            Case::Read { table, frame, parameter, sample } => {
                put_asked(&mut out, table, frame, *parameter, *sample);
            }
            Case::Place { table, frame, parameter, sample, value } => {
                put_asked(&mut out, table, frame, *parameter, *sample);
                out.extend(value.to_le_bytes());
            }
            Case::Compare { table, frame } => {
                put_bytes(&mut out, table);
                put_words(&mut out, frame);
            }
            Case::Name { table, parameter } => {
                put_bytes(&mut out, table);
                out.extend(parameter.to_le_bytes());
            }
            Case::Mnemonic { table, mnemonic } => {
                put_bytes(&mut out, table);
                put_bytes(&mut out, mnemonic);
            }
            Case::Card { table, stream, lent } => put_card(&mut out, table, stream, &[*lent as u32]),
            Case::Page { table, frame, requests, lent } => {
                put_bytes(&mut out, table);
                put_words(&mut out, frame);
                put_requests(&mut out, requests);
                out.extend((*lent as u32).to_le_bytes());
            }
            Case::CardFrom { table, stream, from, lent } => {
                put_card(&mut out, table, stream, &[*from, *lent as u32]);
            }
        }
        out
    }

    /// The line that answers this case, by the reading switched on. A wrong
    /// reading may fail altogether on what it lets through.
    pub fn line(&self) -> String {
        if wrong::any_wrong() {
            return panic::catch_unwind(|| self.plain_line()).unwrap_or("failed".to_string());
        }
        self.plain_line()
    }

    fn plain_line(&self) -> String {
        match self {
            Case::Make { sheet, lent } => make_line(sheet, *lent),
            Case::Check { table } => format!("2 {}", if checking::check(table).is_some() { 0 } else { 18 }),
            Case::Read { table, frame, parameter, sample } => {
                match reading::read(table, frame, *parameter, *sample) {
                    Ok(answer) => {
                        format!("3 0 {} {} {} {}", answer.kind, answer.width, answer.raw, answer.value)
                    }
                    Err(number) => format!("3 {number} 0 0 0 0"),
                }
            }
            Case::Place { table, frame, parameter, sample, value } => {
                let mut words = frame.clone();
                let placed = placing::place(table, &mut words, *parameter, *sample, *value);
                format!("4 {} {}", placed.err().unwrap_or(0), sum(words.iter().map(|&word| u64::from(word))))
            }
            Case::Compare { table, frame } => match comparing::compare(table, frame) {
                Ok(()) => "5 0 0".to_string(),
                Err(refused) => format!("5 {} {}", refused.number, refused.subframe),
            },
            Case::Name { table, parameter } => part_line(6, naming::by_number(table, *parameter)),
            Case::Mnemonic { table, mnemonic } => part_line(7, naming::by_mnemonic(table, mnemonic)),
            Case::Card { table, stream, lent } => {
                card_line(8, *lent, |words| carding::card(table, stream, words))
            }
            Case::Page { table, frame, requests, lent } => page_line(table, frame, requests, *lent),
            Case::CardFrom { table, stream, from, lent } => {
                card_line(10, *lent, |words| carding::card_from(table, stream, *from, words))
            }
        }
    }
}

fn make_line(sheet: &[u8], lent: usize) -> String {
    let mut bytes = vec![BEFORE; lent];
    let (number, at) = match making::make(sheet, &mut bytes) {
        Ok(length) => (0, length),
        Err(refusal) => (refusal.number, refusal.line as usize),
    };
    format!("1 {number} {at} {}", sum(bytes.iter().map(|&byte| u64::from(byte))))
}

fn part_line(kind: u8, part: Result<Part, u8>) -> String {
    match part {
        Ok(part) => format!("{kind} 0 {} {}", part.start, part.length),
        Err(number) => format!("{kind} {number} 0 0"),
    }
}

fn card_line(kind: u8, lent: usize, call: impl Fn(&mut [u16]) -> Result<Found, u8>) -> String {
    let mut words = vec![BEFORE_WORDS; lent];
    let (number, found) = match call(&mut words) {
        Ok(found) => (0, found),
        Err(number) => (number, Found { position: 0, count: 0 }),
    };
    let sum = sum(words.iter().map(|&word| u64::from(word)));
    format!("{kind} {number} {} {} {sum}", found.position, found.count)
}

fn page_line(table: &[u8], frame: &[u16], requests: &[Request], lent: usize) -> String {
    let mut slots = vec![BEFORE_RESULTS; lent];
    let paged = paging::page(table, frame, requests, &mut slots);
    let sum = sum(slots.iter().flat_map(slot_items));
    format!("9 {} {} {sum}", paged.number, paged.count)
}

/// The value is two numbers: its low 32 bits, then its high ones.
fn slot_items(slot: &Slot) -> [u64; 6] {
    let value = slot.value as u64;
    let [number, kind, width, raw] = [slot.number, slot.kind, slot.width, slot.raw].map(u64::from);
    [number, kind, width, raw, value & 0xFFFF_FFFF, value >> 32]
}

pub fn sum(items: impl Iterator<Item = u64>) -> u64 {
    items.fold(0, |h, x| (h * 257 + x + 1) % 4_294_967_291)
}

fn put_asked(out: &mut Vec<u8>, table: &[u8], frame: &[u16], parameter: u32, sample: u32) {
    put_bytes(out, table);
    put_words(out, frame);
    out.extend(parameter.to_le_bytes());
    out.extend(sample.to_le_bytes());
}

fn put_card(out: &mut Vec<u8>, table: &[u8], stream: &[u8], numbers: &[u32]) {
    put_bytes(out, table);
    put_bytes(out, stream);
    out.extend(numbers.iter().flat_map(|number| number.to_le_bytes()));
}

fn put_requests(out: &mut Vec<u8>, requests: &[Request]) {
    out.extend((requests.len() as u32).to_le_bytes());
    for request in requests {
        out.extend(request.parameter.to_le_bytes());
        out.extend(request.sample.to_le_bytes());
    }
}

fn put_bytes(out: &mut Vec<u8>, bytes: &[u8]) {
    out.extend((bytes.len() as u32).to_le_bytes());
    out.extend(bytes);
}

fn put_words(out: &mut Vec<u8>, words: &[u16]) {
    out.extend((words.len() as u32).to_le_bytes());
    out.extend(words.iter().flat_map(|word| word.to_le_bytes()));
}

/// The refusal number that a line tells (0 where answered).
pub fn number_of(line: &str) -> Option<usize> {
    line.split(' ').nth(1)?.parse().ok()
}

#[cfg(test)]
mod tests {
    use super::*;

    #[test]
    fn sum_of_items() {
        assert_eq!(sum([].into_iter()), 0);
        assert_eq!(sum([0].into_iter()), 1);
        assert_eq!(sum([0, 0].into_iter()), 258);
        assert_eq!(
            sum([583, 5, 0, 6].into_iter()),
            584 * 257 * 257 * 257 % 4_294_967_291 + 6 * 257 * 257 + 257 + 7
        );
    }

    #[test]
    fn bytes_of_a_case() {
        let case = Case::Place { table: vec![9], frame: vec![258], parameter: 3, sample: 4, value: 5 };
        let expected = [4, 1, 0, 0, 0, 9, 1, 0, 0, 0, 2, 1, 3, 0, 0, 0, 4, 0, 0, 0, 5, 0, 0, 0, 0, 0, 0, 0];
        assert_eq!(case.bytes(), expected);
        assert_eq!(case.line(), "4 18 259");
    }

    #[test]
    fn line_of_a_refused_sheet() {
        let case = Case::Make { sheet: vec![], lent: 2 };
        assert_eq!(case.line(), format!("1 4 1 {}", 166 * 257 + 166));
    }
}
