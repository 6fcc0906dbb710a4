//! A sheet in the making: its lines with their kinds, before they become bytes.

use crate::contents::{Component, Contents, Parameter, Sample, Subframe};
use crate::lawful;
use crate::random::Random;

#[derive(Clone, Copy, Debug, PartialEq, Eq)]
pub enum Kind {
    HeaderKeyword,
    Header,
    RecordKeyword,
    Record,
    None,
    ParameterKeyword,
    Parameter,
    Component,
    Time,
    SamplesBlank,
    Signed,
    Range,
    IdentifierRange,
    Source,
    Label,
    SourceBlank,
    LastBlank,
}

#[derive(Clone, Debug)]
pub struct DraftLine {
    pub kind: Kind,
    /// A keyword is one field; a blank line has none.
    pub fields: Vec<Vec<u8>>,
    /// Bytes that stand in place of the fields.
    pub raw: Option<Vec<u8>>,
    /// What the line's subframe declares, for a component line.
    pub bits: u16,
    pub words: u16,
}

impl DraftLine {
    pub fn of(kind: Kind, fields: Vec<Vec<u8>>) -> Self {
        DraftLine { kind, fields, raw: None, bits: 12, words: 4 }
    }
}

#[derive(Clone, Debug)]
pub struct Draft {
    pub lines: Vec<DraftLine>,
}

/// Spells the contents in one of the many lawful ways.
pub fn spell(random: &mut Random, contents: &Contents) -> Draft {
    let mut draft = Draft { lines: vec![] };
    draft.keyword(Kind::HeaderKeyword, "HEADER:");
    draft.push(Kind::Header, header(random, contents));
    let first = &contents.subframes[0];
    let alike = contents.subframes.iter().all(|subframe| subframe == first);
    let pairs = if alike && random.percent(70) { 1 } else { contents.subframes.len() };
    for subframe in &contents.subframes[..pairs] {
        draft.keyword(Kind::RecordKeyword, "RECORD:");
        draft.push(Kind::Record, record(random, subframe));
    }
    if contents.parameters.is_empty() {
        draft.keyword(Kind::None, "NONE");
    }
    for parameter in &contents.parameters {
        spell_parameter(random, &mut draft, contents, parameter);
    }
    draft
}

impl Draft {
    pub fn keyword(&mut self, kind: Kind, keyword: &str) {
        self.push(kind, vec![keyword.as_bytes().to_vec()]);
    }

    fn push(&mut self, kind: Kind, fields: Vec<Vec<u8>>) {
        self.lines.push(DraftLine::of(kind, fields));
    }

    /// The indexes of the lines of this kind.
    pub fn places(&self, kind: Kind) -> Vec<usize> {
        (0..self.lines.len()).filter(|&at| self.lines[at].kind == kind).collect()
    }

    /// The sheet's bytes, in half of the cases with blanks round fields.
    pub fn bytes(&self, random: &mut Random) -> Vec<u8> {
        let padded = random.percent(50);
        let mut sheet = Vec::new();
        for line in &self.lines {
            match &line.raw {
                Some(raw) => sheet.extend(raw),
                None => sheet.extend(line_bytes(random, &line.fields, padded)),
            }
            sheet.push(10);
        }
        sheet
    }
}

/// The fields joined by commas; blanks are added only as far as the line
/// stays within its limit.
fn line_bytes(random: &mut Random, fields: &[Vec<u8>], padded: bool) -> Vec<u8> {
    let plain = fields.join(&b',');
    if !padded || plain.len() > 600 {
        return plain;
    }
    if fields.is_empty() {
        return blanks(random);
    }
    let mut line = Vec::new();
    for (index, field) in fields.iter().enumerate() {
        if index > 0 {
            line.push(b',');
        }
        line.extend(blanks(random));
        line.extend(field);
        line.extend(blanks(random));
    }
    if line.len() > 1024 {
        plain
    } else {
        line
    }
}

fn blanks(random: &mut Random) -> Vec<u8> {
    let count = match random.below(1000) {
        0 => 210,
        1..=150 => random.between(1, 3),
        _ => 0,
    };
    (0..count).map(|_| *random.pick(b" \t ")).collect()
}

fn header(random: &mut Random, contents: &Contents) -> Vec<Vec<u8>> {
    let mut fields = vec![vec![]; 14];
    fields[0] = b"2.0".to_vec();
    fields[2] = b"TypeX".to_vec();
    fields[5] = b"001".to_vec();
    for index in [1, 2, 3, 4, 5, 6, 7, 12, 13] {
        if random.percent(20) {
            fields[index] = some_text(random);
        }
    }
    if random.percent(5) {
        fields[*random.pick(&[1, 3, 7, 13])] = lawful::text(random, 200);
    }
    fields[8] = boolean(random, contents.sequential);
    fields[11] = number(random, contents.subframes.len() as u64);
    fields
}

/// Short text that is not empty.
fn some_text(random: &mut Random) -> Vec<u8> {
    let length = random.between(1, 12);
    lawful::text(random, length)
}

fn optional_text(random: &mut Random) -> Vec<u8> {
    match random.below(40) {
        0 => lawful::text(random, 200),
        1 => {
            let length = random.between(65, 199);
            lawful::text(random, length)
        }
        2..=14 => some_text(random),
        _ => vec![],
    }
}

pub fn boolean(random: &mut Random, value: bool) -> Vec<u8> {
    let spellings: &[&str] = if value { &["True", "true", "TRUE"] } else { &["False", "false", "FALSE"] };
    random.pick(spellings).as_bytes().to_vec()
}

/// A number, now and then with leading zeros up to 6 digits.
pub fn number(random: &mut Random, value: u64) -> Vec<u8> {
    let plain = value.to_string();
    if plain.len() < 6 && random.percent(12) {
        let digits = random.between(plain.len() + 1, 6);
        return format!("{value:0>digits$}").into_bytes();
    }
    plain.into_bytes()
}

fn record(random: &mut Random, subframe: &Subframe) -> Vec<Vec<u8>> {
    vec![
        number(random, u64::from(subframe.bits)),
        number(random, u64::from(subframe.words)),
        margin(random, subframe.leading),
        margin(random, subframe.trailing),
        seconds(random, subframe.numerator, u64::from(subframe.denominator)),
    ]
}

/// Empty where unknown.
fn margin(random: &mut Random, margin: Option<u16>) -> Vec<u8> {
    margin.map_or(vec![], |bits| number(random, u64::from(bits)))
}

/// One of the spellings of this fraction.
fn seconds(random: &mut Random, above: u64, below: u64) -> Vec<u8> {
    let mut spellings = Vec::new();
    if below != 0 && 1_000_000 % below == 0 {
        spellings.push(decimal(random, above * (1_000_000 / below)));
    }
    for factor in [1, 2, 3, 10, 12] {
        let (above, below) = (above * factor, below * factor);
        if below == 0 || below > 999_999 {
            continue;
        }
        if above <= 999_999 {
            spellings.push(format!("{above}/{below}").into_bytes());
        }
        if above % below != 0 && above / below <= 999_999 {
            spellings.push(format!("{} {}/{below}", above / below, above % below).into_bytes());
        }
    }
    if spellings.is_empty() {
        return format!("{above}/{below}").into_bytes();
    }
    random.pick(&spellings).clone()
}

/// A decimal of so many millionths, with or without needless zeros.
fn decimal(random: &mut Random, millionths: u64) -> Vec<u8> {
    let whole = millionths / 1_000_000;
    let mut after = format!("{:06}", millionths % 1_000_000);
    let shortest = after.trim_end_matches('0').len();
    after.truncate(random.between(shortest, 6));
    if after.is_empty() { format!("{whole}") } else { format!("{whole}.{after}") }.into_bytes()
}

fn spell_parameter(random: &mut Random, draft: &mut Draft, contents: &Contents, parameter: &Parameter) {
    draft.keyword(Kind::ParameterKeyword, "PARAMETER:");
    let mut fields = vec![vec![]; 7];
    fields[0] = parameter.name.clone();
    fields[1] = parameter.mnemonic.clone();
    fields[2] = parameter.identification.clone();
    fields[3] = boolean(random, parameter.identifier.is_some());
    fields[5] = optional_text(random);
    fields[6] = optional_text(random);
    draft.push(Kind::Parameter, fields);
    for sample in &parameter.samples {
        spell_sample(random, draft, contents, sample);
    }
    draft.push(Kind::SamplesBlank, vec![]);
    let units = optional_text(random);
    draft.push(Kind::Signed, vec![boolean(random, parameter.signed), vec![], vec![], units, vec![]]);
    spell_range(random, draft, parameter);
    spell_sources(random, draft);
    draft.push(Kind::LastBlank, vec![]);
}

fn spell_sample(random: &mut Random, draft: &mut Draft, contents: &Contents, sample: &Sample) {
    for component in &sample.components {
        let line = component_line(random, contents, component);
        draft.lines.push(line);
    }
    draft.push(Kind::Time, vec![decimal(random, u64::from(sample.time))]);
}

pub fn component_line(random: &mut Random, contents: &Contents, component: &Component) -> DraftLine {
    let fields = vec![
        number(random, u64::from(component.subframe)),
        number(random, u64::from(component.word)),
        number(random, u64::from(component.overlap)),
        bits(random, component.low, component.high),
    ];
    let mut line = DraftLine::of(Kind::Component, fields);
    if let Some(declared) = contents.subframes.get(usize::from(component.subframe).wrapping_sub(1)) {
        line.bits = declared.bits;
        line.words = declared.words;
    }
    line
}

fn bits(random: &mut Random, low: u8, high: u8) -> Vec<u8> {
    let low_digits = number(random, u64::from(low));
    if low == high && random.percent(60) {
        return low_digits;
    }
    [low_digits, number(random, u64::from(high))].join(&b'-')
}

fn spell_range(random: &mut Random, draft: &mut Draft, parameter: &Parameter) {
    let resolution = optional_text(random);
    let delay = if random.percent(30) {
        let most = *random.pick(&[10_000_000, 999_999_999_999]);
        let millionths = random.between(0, most) as u64;
        decimal(random, millionths)
    } else {
        vec![]
    };
    match parameter.identifier {
        None => {
            let range = optional_text(random);
            draft.push(Kind::Range, vec![range, vec![], resolution, delay]);
        }
        Some(value) => {
            let digits = if random.percent(12) { 10 } else { 1 };
            let range = format!("{value:0>digits$}").into_bytes();
            draft.push(Kind::IdentifierRange, vec![range, vec![], resolution, delay]);
        }
    }
}

fn spell_sources(random: &mut Random, draft: &mut Draft) {
    let count = if random.percent(80) { 1 } else { random.between(2, 3) };
    for _ in 0..count {
        let texts = (0..3).map(|_| optional_text(random)).collect();
        draft.push(Kind::Source, texts);
        if random.percent(35) {
            let line = label_line(random);
            draft.push(Kind::Label, line);
        }
        draft.push(Kind::SourceBlank, vec![]);
    }
}

fn label_line(random: &mut Random) -> Vec<Vec<u8>> {
    let flag = if random.percent(50) {
        let value = random.percent(50);
        boolean(random, value)
    } else {
        vec![]
    };
    let label = match random.below(4) {
        0 => "377".to_string(),
        1 => format!("{:03o}", random.below(0o400)),
        _ => format!("{:o}", random.below(0o400)),
    };
    let low = random.between(1, 32) as u8;
    let high = random.between(usize::from(low), 32) as u8;
    let bits = if random.percent(50) { bits(random, low, high) } else { vec![] };
    vec![flag, label.into_bytes(), bits, optional_text(random)]
}
