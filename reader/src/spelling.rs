//! Spelling of the fields. An error is the refusal number; each function
//! keeps the order given for its kind of field.

use crate::limits;
use crate::lines::is_line_byte;
use crate::wrong::{wrongly, Wrong};

/// Text: 7, then 8, then 6.
pub fn text(field: &[u8], limit: usize, mandatory: bool) -> Result<Vec<u8>, u8> {
    if wrongly(Wrong::B7b) && !field.iter().all(is_line_byte) {
        return Err(2);
    }
    if wrongly(Wrong::B14a) && field.contains(&9) {
        return Err(6);
    }
    if counted(field) > limit {
        return Err(7);
    }
    if mandatory && field.is_empty() {
        return Err(8);
    }
    if misspelled_text(field) {
        return Err(6);
    }
    match field {
        [b'"', inner @ .., b'"'] if wrongly(Wrong::D1) => Ok(inner.to_vec()),
        _ => Ok(field.to_vec()),
    }
}

fn counted(field: &[u8]) -> usize {
    if wrongly(Wrong::B14b) {
        return field.iter().filter(|&&byte| byte != 9).count();
    }
    field.len()
}

fn misspelled_text(field: &[u8]) -> bool {
    let tab = field.contains(&9) && !wrongly(Wrong::B30a);
    let quote = field.contains(&b'"') && wrongly(Wrong::B30b);
    tab || quote
}

/// The version is a text field with a 9 at its chain's end.
pub fn version(field: &[u8]) -> Result<(), u8> {
    let right = is_two_point_nought(field);
    if wrongly(Wrong::B14d) && !field.is_empty() && !right {
        return Err(9);
    }
    if wrongly(Wrong::B14g) && field.is_empty() {
        return Err(9);
    }
    let limit = if wrongly(Wrong::B31b) { limits::name() } else { limits::text() };
    text(field, limit, true)?;
    if right {
        Ok(())
    } else {
        Err(9)
    }
}

fn is_two_point_nought(field: &[u8]) -> bool {
    if wrongly(Wrong::B14e) && field == b"\"2.0\"" {
        return true;
    }
    if wrongly(Wrong::B14f) {
        return decimal(field, 6) == Some(2_000_000);
    }
    field == b"2.0"
}

/// A field that must be empty gives only 10.
pub fn must_be_empty(field: &[u8]) -> Result<(), u8> {
    if wrongly(Wrong::B16a) && field.len() > 200 {
        return Err(7);
    }
    if wrongly(Wrong::B16b) && field.contains(&9) {
        return Err(6);
    }
    if field.is_empty() {
        Ok(())
    } else {
        Err(10)
    }
}

pub fn boolean(field: &[u8]) -> Result<bool, u8> {
    if let Some(value) = wrong_boolean(field) {
        return value;
    }
    match field {
        b"" => Err(8),
        b"True" | b"true" | b"TRUE" => Ok(true),
        b"False" | b"false" | b"FALSE" => Ok(false),
        _ => Err(6),
    }
}

fn wrong_boolean(field: &[u8]) -> Option<Result<bool, u8>> {
    if wrongly(Wrong::B32a) {
        let (yes, no) = (field.eq_ignore_ascii_case(b"true"), field.eq_ignore_ascii_case(b"false"));
        return (yes || no).then_some(Ok(yes));
    }
    if wrongly(Wrong::B32b) {
        let (yes, no) = (field == b"T" || field == b"1", field == b"F" || field == b"0");
        return (yes || no).then_some(Ok(yes));
    }
    let capitalised = field == b"True" || field == b"False";
    (wrongly(Wrong::B32c) && capitalised).then_some(Err(6))
}

/// The value of 1 to `most` digits and nothing else.
pub fn digits(bytes: &[u8], most: usize) -> Option<u64> {
    let bytes = wrongly_lenient_digits(bytes);
    if bytes.is_empty() {
        return wrongly(Wrong::B27).then_some(0);
    }
    if bytes.len() > most || (wrongly(Wrong::B23) && bytes.len() > 1 && bytes[0] == b'0') {
        return None;
    }
    let mut value = 0;
    for &byte in bytes {
        if !byte.is_ascii_digit() {
            return None;
        }
        value = value * 10 + u64::from(byte - b'0');
    }
    Some(value)
}

fn wrongly_lenient_digits(bytes: &[u8]) -> &[u8] {
    match bytes {
        [b'+', rest @ ..] if wrongly(Wrong::B24a) => rest,
        [b'0', _, ..] if wrongly(Wrong::B22c) => {
            let zeros = bytes.iter().take_while(|&&byte| byte == b'0').count();
            &bytes[zeros.min(bytes.len() - 1)..]
        }
        _ => bytes,
    }
}

/// What a misspelled number gives: 6.
fn misspelled(field: &[u8]) -> u8 {
    let all_digits = |bytes: &[u8]| !bytes.is_empty() && bytes.iter().all(u8::is_ascii_digit);
    if wrongly(Wrong::B22a) && all_digits(field) {
        return 11;
    }
    if wrongly(Wrong::B24b) && field[0] == b'-' && all_digits(&field[1..]) {
        return 11;
    }
    if wrongly(Wrong::B15) && field.len() > 200 {
        return 7;
    }
    6
}

/// A mandatory number of 1 to `most` digits: 8, then 6.
pub fn integer(field: &[u8], most: usize) -> Result<u64, u8> {
    if field.is_empty() {
        return Err(8);
    }
    digits(field, most).ok_or_else(|| misspelled(field))
}

/// What a number outside its limit gives: 11.
pub fn outside() -> u8 {
    if wrongly(Wrong::B22b) {
        6
    } else {
        11
    }
}

/// A mandatory integer within limits: 8, 6, 11.
pub fn integer_within(field: &[u8], least: u64, most: usize) -> Result<u64, u8> {
    let value = integer(field, limits::digits())?;
    if value < least || value > most as u64 {
        Err(outside())
    } else {
        Ok(value)
    }
}

/// An identifier's value: 8, 6, 11.
pub fn identifier_value(field: &[u8]) -> Result<u32, u8> {
    if wrongly(Wrong::B42a) && field.len() > 200 {
        return Err(7);
    }
    let most = if wrongly(Wrong::B42b) { limits::digits() } else { limits::value_digits() };
    let value = integer(field, most)?;
    if value > limits::identifier_value() as u64 {
        return Err(outside());
    }
    Ok(value as u32)
}

/// A decimal in millionths, with at most `before` digits before the point.
pub fn decimal(bytes: &[u8], before: usize) -> Option<u64> {
    if let Some(value) = wrong_decimal(bytes, before) {
        return Some(value);
    }
    let Some(point) = bytes.iter().position(|&byte| byte == b'.') else {
        return Some(digits(bytes, before)? * 1_000_000);
    };
    let whole = digits(&bytes[..point], before)?;
    Some(whole * 1_000_000 + millionths(&bytes[point + 1..])?)
}

/// 1 to 6 digits after a point, padded on the right.
fn millionths(after: &[u8]) -> Option<u64> {
    if after.is_empty() || after.len() > limits::digits_after_point() || !after.iter().all(u8::is_ascii_digit)
    {
        return None;
    }
    let mut value = after.iter().fold(0, |sum, byte| sum * 10 + u64::from(byte - b'0'));
    if !wrongly(Wrong::B26b) {
        for _ in after.len()..6 {
            value *= 10;
        }
    }
    Some(value)
}

/// Spellings that only a wrong reading accepts.
fn wrong_decimal(bytes: &[u8], before: usize) -> Option<u64> {
    let point = bytes.iter().position(|&byte| byte == b'.');
    if wrongly(Wrong::B25a) && point == Some(0) {
        return millionths(&bytes[1..]);
    }
    if wrongly(Wrong::B25b) && point.is_some() && point == bytes.len().checked_sub(1) {
        return Some(digits(&bytes[..bytes.len() - 1], before)? * 1_000_000);
    }
    if wrongly(Wrong::B25c) {
        let after = point? + 1;
        let longer = bytes.len() > after + 6 && bytes[after..].iter().all(u8::is_ascii_digit);
        return if longer { decimal(&bytes[..after + 6], before) } else { None };
    }
    if wrongly(Wrong::B25d) {
        let exponent = bytes.iter().position(|&byte| byte == b'e' || byte == b'E')?;
        digits(&bytes[exponent + 1..], 2)?;
        return decimal(&bytes[..exponent], before);
    }
    None
}

/// A time offset in millionths: 6.
pub fn time(field: &[u8]) -> Result<u32, u8> {
    if wrongly(Wrong::B26a) && decimal(field, 6).is_some() && decimal(field, 3).is_none() {
        return Err(11);
    }
    let words: [&[u8]; 3] = [b"WORD_OFFSET", b"EQUAL_SPACED", b"NOT_SPECIFIED"];
    if wrongly(Wrong::D13) && words.contains(&field) {
        return Ok(0);
    }
    decimal(field, limits::time_digits()).map(|time| time as u32).ok_or(6)
}

/// Bits `a` or `a-b`: 8, then 6. Whether a stands above b is for the caller.
pub fn bits(field: &[u8]) -> Result<(u64, u64), u8> {
    if field.is_empty() {
        return Err(8);
    }
    let parted = field.iter().position(|&byte| byte == b'-' || (byte == b' ' && wrongly(Wrong::B45a_4)));
    let Some(hyphen) = parted else {
        let only = digits(field, limits::digits()).ok_or_else(|| misspelled(field))?;
        return Ok((only, only));
    };
    let (low, high) = (range_end(&field[..hyphen]), range_end(&field[hyphen + 1..]));
    if wrongly(Wrong::B45a_2) && low.is_none() != high.is_none() {
        let there = low.or(high).unwrap_or(0);
        return Ok((there, there));
    }
    let (low, high) = (low.ok_or(6)?, high.ok_or(6)?);
    if wrongly(Wrong::B45a_3) && low == high {
        Err(11)
    } else {
        Ok((low, high))
    }
}

fn range_end(bytes: &[u8]) -> Option<u64> {
    if wrongly(Wrong::B45a_1) {
        return digits(crate::lines::trim(bytes), 6);
    }
    digits(bytes, limits::digits())
}

/// An octal label up to 377: 8, 6, 11.
pub fn label(field: &[u8]) -> Result<u64, u8> {
    if field.is_empty() {
        return if wrongly(Wrong::B47c) { Ok(0) } else { Err(8) };
    }
    let field = match field {
        [before @ .., b'o'] if wrongly(Wrong::B47d) => before,
        _ => field,
    };
    let octal = !field.is_empty() && field.iter().all(|byte| (b'0'..=b'7').contains(byte));
    if wrongly(Wrong::B47b) && octal && field.len() == 4 {
        return Err(11);
    }
    if field.len() > 3 || !octal {
        return Err(6);
    }
    let value = field.iter().fold(0, |sum, byte| sum * 8 + u64::from(byte - b'0'));
    if value <= limits::label() as u64 {
        return Ok(value);
    }
    if wrongly(Wrong::B47a) {
        Err(6)
    } else {
        Err(outside())
    }
}
