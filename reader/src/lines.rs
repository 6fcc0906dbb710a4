//! Walking over the lines of a sheet: refusals 4, 3 and 2.

use crate::contents::Refusal;
use crate::limits;
use crate::wrong::{wrongly, Wrong};

#[derive(Clone)]
pub struct Lines<'s> {
    sheet: &'s [u8],
    next: usize,
    taken: u32,
}

#[derive(Clone, Debug)]
pub struct Line<'s> {
    pub number: u32,
    /// The line without spaces and tabs round it.
    pub trimmed: &'s [u8],
    /// No fields where the line is blank.
    pub fields: Vec<&'s [u8]>,
    /// The fields with the blanks round them.
    pub pieces: Vec<&'s [u8]>,
}

impl<'s> Lines<'s> {
    pub fn of(sheet: &'s [u8]) -> Self {
        Lines { sheet, next: 0, taken: 0 }
    }

    pub fn at_end(&self) -> bool {
        self.next == self.sheet.len()
    }

    /// Whether a rest without an end byte stands here.
    pub fn at_unended_rest(&self) -> bool {
        !self.at_end() && !self.sheet[self.next..].contains(&10)
    }

    /// A refusal at the line due here, whatever that line holds.
    pub fn refused_here(&self, number: u8) -> Refusal {
        Refusal { number, line: self.taken + 1 }
    }

    /// Takes the line due here, judged by 4, then 3, then 2.
    pub fn take(&mut self) -> Result<Line<'s>, Refusal> {
        if self.at_end() {
            return Err(self.nothing_left());
        }
        let rest = &self.sheet[self.next..];
        let end = rest.iter().position(|&byte| byte == 10);
        let length = end.unwrap_or(rest.len());
        let ended = end.is_some() || wrongly(Wrong::B4c);
        let whole = without_return(&rest[..length]);
        for number in order() {
            if breaks(number, whole, ended) {
                return Err(self.refused_here(number));
            }
        }
        self.next = (self.next + length + 1).min(self.sheet.len());
        self.taken += 1;
        Ok(Line::of(self.taken, whole))
    }

    fn nothing_left(&self) -> Refusal {
        let line = if wrongly(Wrong::B3) { self.taken } else { self.taken + 1 };
        Refusal { number: 4, line }
    }
}

fn order() -> [u8; 3] {
    if wrongly(Wrong::B4a) {
        return [3, 4, 2];
    }
    if wrongly(Wrong::B4b) {
        return [2, 4, 3];
    }
    if wrongly(Wrong::B13b) {
        return [4, 2, 3];
    }
    [4, 3, 2]
}

fn breaks(number: u8, whole: &[u8], ended: bool) -> bool {
    match number {
        4 => !ended,
        3 => measured(whole).len() > limits::line(),
        _ => !wrongly(Wrong::B7b) && !whole.iter().all(is_line_byte),
    }
}

pub fn is_line_byte(byte: &u8) -> bool {
    *byte == 9 || (32..=126).contains(byte)
}

fn measured(whole: &[u8]) -> &[u8] {
    if wrongly(Wrong::B2) {
        trim(whole)
    } else {
        whole
    }
}

fn without_return(whole: &[u8]) -> &[u8] {
    match whole {
        [before @ .., 13] if wrongly(Wrong::B7a) => before,
        _ => whole,
    }
}

impl<'s> Line<'s> {
    fn of(number: u32, whole: &'s [u8]) -> Self {
        let trimmed = if wrongly(Wrong::B8b) { whole } else { trim(whole) };
        let pieces = if trimmed.is_empty() { Vec::new() } else { pieces_of(trimmed) };
        let untrimmed = wrongly(Wrong::B8c);
        let mut fields: Vec<&[u8]> =
            pieces.iter().map(|piece| if untrimmed { piece } else { trim(piece) }).collect();
        if wrongly(Wrong::B9b) && fields.iter().all(|field| field.is_empty()) {
            fields.clear();
        }
        Line { number, trimmed, fields, pieces }
    }

    pub fn refused(&self, number: u8) -> Refusal {
        Refusal { number, line: self.number }
    }

    /// Keywords stand alone and in capitals.
    pub fn is_keyword(&self, keyword: &[u8]) -> bool {
        if wrongly(Wrong::B11a) {
            return self.trimmed.eq_ignore_ascii_case(keyword);
        }
        if wrongly(Wrong::B11b) {
            return self.trimmed == keyword || self.trimmed == [keyword, b","].concat();
        }
        if wrongly(Wrong::B11c) {
            let kept: Vec<u8> = self.trimmed.iter().copied().filter(|&b| b != 32 && b != 9).collect();
            return kept == keyword;
        }
        if wrongly(Wrong::B11d) && keyword.ends_with(b":") {
            return self.trimmed == keyword || self.trimmed == &keyword[..keyword.len() - 1];
        }
        self.trimmed == keyword
    }

    pub fn is_any_keyword(&self) -> bool {
        let keywords: [&[u8]; 4] = [b"HEADER:", b"RECORD:", b"PARAMETER:", b"NONE"];
        keywords.contains(&self.trimmed)
    }
}

/// The pieces between the commas.
fn pieces_of(trimmed: &[u8]) -> Vec<&[u8]> {
    let mut quoted = false;
    let parts = trimmed.split(|&byte| {
        quoted ^= byte == b'"' && wrongly(Wrong::B10);
        byte == b',' && !quoted
    });
    parts.collect()
}

/// Drops spaces and tabs at both ends.
pub fn trim(bytes: &[u8]) -> &[u8] {
    let is_blank = |byte: &u8| *byte == b' ' || (*byte == b'\t' && !wrongly(Wrong::B8a));
    let Some(first) = bytes.iter().position(|byte| !is_blank(byte)) else {
        return &[];
    };
    let last = bytes.iter().rposition(|byte| !is_blank(byte)).unwrap_or(first);
    &bytes[first..=last]
}
