//! The fields of each kind of line, judged left to right.

use crate::contents::{Component, Parameter, Refusal, Subframe};
use crate::limits;
use crate::lines::Line;
use crate::seconds;
use crate::spelling;
use crate::wrong::{wrongly, Wrong};

/// Collects the findings of a line's fields in their order. Every field is
/// judged, and the first finding stands.
pub struct Judged<'l, 's> {
    pub line: &'l Line<'s>,
    found: Vec<u8>,
}

impl<'l, 's> Judged<'l, 's> {
    pub fn of(line: &'l Line<'s>) -> Self {
        Judged { line, found: vec![] }
    }

    /// Notes a refusal; the value answered in its place is never used.
    pub fn see<T: Default>(&mut self, judged: Result<T, u8>) -> T {
        judged.unwrap_or_else(|number| {
            self.found.push(number);
            T::default()
        })
    }

    pub fn verdict(&self) -> Result<(), Refusal> {
        if wrongly(Wrong::B13) {
            let order = [2, 7, 8, 6, 9, 10, 11, 13, 15];
            let earliest = order.into_iter().find(|number| self.found.contains(number));
            return earliest.map_or(Ok(()), |number| Err(self.line.refused(number)));
        }
        self.found.first().map_or(Ok(()), |&number| Err(self.line.refused(number)))
    }

    fn field(&self, index: usize) -> &'s [u8] {
        self.line.fields[index]
    }

    fn text(&mut self, index: usize, limit: usize, mandatory: bool) -> Vec<u8> {
        let too_long_untrimmed = wrongly(Wrong::B14c) && self.line.pieces[index].len() > limit;
        let judged = spelling::text(self.field(index), limit, mandatory);
        self.see(if too_long_untrimmed { Err(7) } else { judged })
    }

    fn optional_text(&mut self, index: usize) {
        self.text(index, self.limit(index), false);
    }

    fn mandatory_text(&mut self, index: usize) {
        self.text(index, limits::text(), true);
    }

    fn must_be_empty(&mut self, index: usize) {
        let blanks_count = wrongly(Wrong::B16c) && !self.line.pieces[index].is_empty();
        let judged = spelling::must_be_empty(self.field(index));
        self.see(if blanks_count { Err(10) } else { judged });
    }

    fn limit(&self, index: usize) -> usize {
        let of_a_parameter = self.line.fields.len() == 7 && index >= 5;
        if wrongly(Wrong::B31c) && of_a_parameter {
            limits::name()
        } else {
            limits::text()
        }
    }
}

#[derive(Default)]
pub struct Header {
    pub sequential: bool,
    pub count: u64,
}

/// Version, file version, make and model, registration, tail, serial,
/// recorder, acquisition unit, sequential, two empty, count, date, comments.
pub fn header(line: &Line) -> Result<Header, Refusal> {
    let mut judged = Judged::of(line);
    judged.see(spelling::version(line.fields[0]));
    judged.optional_text(1);
    judged.mandatory_text(2);
    judged.optional_text(3);
    judged.optional_text(4);
    judged.mandatory_text(5);
    judged.optional_text(6);
    judged.optional_text(7);
    let sequential = judged.see(sequential(line.fields[8]));
    judged.must_be_empty(9);
    judged.must_be_empty(10);
    let count = judged.see(spelling::integer_within(line.fields[11], 1, limits::subframes()));
    judged.optional_text(12);
    judged.optional_text(13);
    judged.verdict()?;
    Ok(Header { sequential, count })
}

fn sequential(field: &[u8]) -> Result<bool, u8> {
    if field.is_empty() && wrongly(Wrong::B33a) {
        return Ok(false);
    }
    if field.is_empty() && wrongly(Wrong::B33b) {
        return Err(6);
    }
    spelling::boolean(field)
}

pub fn record(line: &Line) -> Result<Subframe, Refusal> {
    let mut judged = Judged::of(line);
    let bits = judged.see(spelling::integer_within(line.fields[0], 1, limits::word_bits())) as u16;
    let words = judged.see(spelling::integer_within(line.fields[1], 1, limits::words())) as u16;
    let leading = judged.see(margin(line.fields[2]));
    let trailing = judged.see(margin(line.fields[3]));
    let (numerator, denominator) = judged.see(seconds::seconds(line.fields[4]));
    judged.verdict()?;
    Ok(Subframe { bits, words, leading, trailing, numerator, denominator })
}

/// Leading or trailing bits, where empty says unknown.
fn margin(field: &[u8]) -> Result<Option<u16>, u8> {
    if field.is_empty() && !wrongly(Wrong::B36b) {
        return Ok(if wrongly(Wrong::B36a) { Some(0) } else { None });
    }
    if field == b"65535" && wrongly(Wrong::MarginUnknownWritten) {
        return Ok(None);
    }
    Ok(Some(spelling::integer_within(field, 0, limits::margin())? as u16))
}

/// The 7 fields; answers the parameter begun and whether it is an identifier.
pub fn parameter(line: &Line, earlier: &[Parameter]) -> Result<(Parameter, bool), Refusal> {
    let mut judged = Judged::of(line);
    let other_limit = if wrongly(Wrong::B31a) { limits::text() } else { limits::name() };
    let name = judged.text(0, limits::name(), true);
    let mnemonic = judged.text(1, other_limit, false);
    let identification = judged.text(2, other_limit, false);
    let parameter =
        Parameter { name, mnemonic, identification, signed: false, identifier: None, samples: vec![] };
    let is_double = earlier.iter().any(|other| equal_names(other, &parameter));
    if wrongly(Wrong::B21b) && is_double {
        judged.see::<()>(Err(15));
    }
    let is_identifier = judged.see(spelling::boolean(line.fields[3]));
    judged.must_be_empty(4);
    judged.optional_text(5);
    judged.optional_text(6);
    judged.verdict()?;
    if is_double {
        return Err(line.refused(15));
    }
    Ok((parameter, is_identifier))
}

/// Whether two parameters share a name, or a mnemonic or identification
/// that is not empty.
pub fn equal_names(one: &Parameter, other: &Parameter) -> bool {
    if wrongly(Wrong::B21e) {
        let texts = |p: &Parameter| [p.name.clone(), p.mnemonic.clone(), p.identification.clone()];
        return texts(one).iter().any(|text| !text.is_empty() && texts(other).contains(text));
    }
    equal_texts(&one.name, &other.name)
        || equal_texts(&one.mnemonic, &other.mnemonic)
        || equal_texts(&one.identification, &other.identification)
}

fn equal_texts(one: &[u8], other: &[u8]) -> bool {
    if wrongly(Wrong::B21c) {
        return !one.is_empty() && one.eq_ignore_ascii_case(other);
    }
    if wrongly(Wrong::B21d) {
        let visible = |text: &[u8]| text.iter().copied().filter(|&b| b != b' ').collect::<Vec<u8>>();
        return !one.is_empty() && visible(one) == visible(other);
    }
    (!one.is_empty() || wrongly(Wrong::B21f)) && one == other
}

pub fn component(line: &Line, subframes: &[Subframe]) -> Result<Component, Refusal> {
    let mut judged = Judged::of(line);
    let subframe =
        judged.see(place(line.fields[0], subframes.len() as u64, Wrong::B18a, limits::subframes()));
    let declared = declared(subframes, subframe);
    let word = judged.see(place(line.fields[1], u64::from(declared.words), Wrong::B18b, limits::words()));
    let overlap = judged.see(overlap(line.fields[2])) as u32;
    let (low, high) = judged.see(component_bits(line.fields[3], u64::from(declared.bits)));
    judged.verdict()?;
    Ok(Component { subframe: subframe as u16, word: word as u16, low: low as u8, high: high as u8, overlap })
}

/// What holds for the named subframe; where the number was refused, the
/// first subframe stands in, and nothing that follows is used.
fn declared(subframes: &[Subframe], subframe: u64) -> &Subframe {
    let index = if wrongly(Wrong::B18e) { 0 } else { (subframe as usize).saturating_sub(1) };
    &subframes[index]
}

/// A number counted from 1 up to what is declared: 8, 6, 11, 13.
fn place(field: &[u8], declared: u64, limit_switch: Wrong, limit: usize) -> Result<u64, u8> {
    let value = spelling::integer(field, limits::digits())?;
    if value == 0 {
        return if wrongly(Wrong::B18f) { Err(13) } else { Err(11) };
    }
    if wrongly(limit_switch) && value > limit as u64 {
        return Err(11);
    }
    if value > declared {
        Err(13)
    } else {
        Ok(value)
    }
}

/// Overlap: 8, 6.
fn overlap(field: &[u8]) -> Result<u64, u8> {
    if wrongly(Wrong::B17d) && field.is_empty() {
        return Ok(0);
    }
    let value = match spelling::integer(field, limits::digits()) {
        Err(6) if wrongly(Wrong::B17b) => return Err(10),
        judged => judged?,
    };
    let above = value > limits::word_bits() as u64;
    match () {
        _ if wrongly(Wrong::B17a) && value > 0 => Err(10),
        _ if wrongly(Wrong::B17c) && above => Err(14),
        _ if wrongly(Wrong::B17e) && above => Err(13),
        _ if wrongly(Wrong::B17f) && above => Err(11),
        _ => Ok(value),
    }
}

/// Bits of a component: 8, 6, 11, 13.
fn component_bits(field: &[u8], declared: u64) -> Result<(u64, u64), u8> {
    let (low, high) = spelling::bits(field)?;
    if wrongly(Wrong::B18d) && low.max(high) > declared {
        return Err(13);
    }
    if low == 0 || low > high {
        return if wrongly(Wrong::B18f) && low == 0 { Err(13) } else { Err(11) };
    }
    if wrongly(Wrong::B18c) && high > limits::word_bits() as u64 {
        return Err(11);
    }
    if high > declared {
        Err(13)
    } else {
        Ok((low, high))
    }
}

/// Answers whether the parameter is signed.
pub fn signed(line: &Line) -> Result<bool, Refusal> {
    let mut judged = Judged::of(line);
    let signed = judged.see(spelling::boolean(line.fields[0]));
    judged.must_be_empty(1);
    judged.must_be_empty(2);
    judged.text(3, limits::text(), wrongly(Wrong::D22));
    judged.must_be_empty(4);
    judged.verdict()?;
    Ok(signed)
}

/// Answers the identifier's value where the parameter is one.
pub fn range(line: &Line, is_identifier: bool) -> Result<Option<u32>, Refusal> {
    let mut judged = Judged::of(line);
    let mut value = None;
    if is_identifier {
        value = Some(judged.see(spelling::identifier_value(line.fields[0])));
    } else {
        judged.text(0, limits::text(), wrongly(Wrong::B42c));
    }
    judged.must_be_empty(1);
    judged.optional_text(2);
    judged.see(delay(line.fields[3]));
    judged.verdict()?;
    Ok(value)
}

fn delay(field: &[u8]) -> Result<(), u8> {
    if field.is_empty() {
        return Ok(());
    }
    spelling::decimal(field, limits::digits()).map(|_| ()).ok_or(6)
}

pub fn source(line: &Line) -> Result<(), Refusal> {
    let mut judged = Judged::of(line);
    judged.optional_text(0);
    judged.optional_text(1);
    judged.optional_text(2);
    judged.verdict()
}

pub fn label(line: &Line) -> Result<(), Refusal> {
    let mut judged = Judged::of(line);
    if !line.fields[0].is_empty() || wrongly(Wrong::B45) {
        judged.see(spelling::boolean(line.fields[0]));
    }
    judged.see(spelling::label(line.fields[1]));
    if !line.fields[2].is_empty() {
        judged.see(source_bits(line.fields[2]));
    }
    judged.optional_text(3);
    judged.verdict()
}

/// Bits of a source, where all outside 1 to 32 is 11.
fn source_bits(field: &[u8]) -> Result<(), u8> {
    let (low, high) = spelling::bits(field)?;
    if low == 0 || low > high {
        return Err(11);
    }
    if high <= limits::source_bits() as u64 {
        return Ok(());
    }
    if wrongly(Wrong::B46) {
        Err(13)
    } else {
        Err(11)
    }
}
