//! What may wrongly (or barely lawfully) stand in a field.

use crate::draft::DraftLine;
use crate::lawful;
use crate::random::Random;

/// What a field holds.
#[derive(Clone, Copy, Debug, PartialEq, Eq)]
pub enum Role {
    Version,
    Text,
    MandatoryText,
    Name,
    OtherName,
    Boolean,
    OptionalBoolean,
    Empty,
    Subframes,
    WordBits,
    Words,
    Margin,
    Seconds,
    Subframe,
    Word,
    Overlap,
    Bits,
    SourceBits,
    Time,
    Value,
    Delay,
    Label,
}

pub fn one(random: &mut Random, role: Role, line: &DraftLine) -> Vec<u8> {
    let all = all(random, role, line);
    random.pick(&all).clone()
}

/// All spellings for this role; their number depends on the role alone.
pub fn all(random: &mut Random, role: Role, line: &DraftLine) -> Vec<Vec<u8>> {
    match role {
        Role::Version => version(random),
        Role::Text => text(random, 200),
        Role::MandatoryText => [text(random, 200), vec![vec![]; 2]].concat(),
        Role::Name => [text(random, 64), vec![vec![]; 2]].concat(),
        Role::OtherName => text(random, 64),
        Role::Boolean | Role::OptionalBoolean => boolean(),
        Role::Empty => must_be_empty(random),
        Role::Subframes => number(&["0", "33", "32", "999999", "00"]),
        Role::WordBits => number(&["0", "17", "16", "999999"]),
        Role::Words => number(&["0", "1025", "1024", "999999", "65537"]),
        Role::Margin => number(&["4096", "4095", "65535", "999999", "0000000"]),
        Role::Seconds => seconds(),
        Role::Subframe => number(&["0", "00", "33", "32", "40", "999999", "65537", "2", "5"]),
        Role::Word => word(line),
        Role::Overlap => {
            number(&["1", "2", "16", "17", "999999", "000", "0000000", "00", "12", "256", "65537"])
        }
        Role::Bits => bits(u64::from(line.bits)),
        Role::SourceBits => bits(32),
        Role::Time => of(TIMES),
        Role::Value => value(random),
        Role::Delay => delay(),
        Role::Label => of(LABELS),
    }
}

fn of(spellings: &[&str]) -> Vec<Vec<u8>> {
    spellings.iter().map(|spelling| spelling.as_bytes().to_vec()).collect()
}

/// Numbers named by the caller, and spellings that no integer has.
fn number(values: &[&str]) -> Vec<Vec<u8>> {
    [of(values), of(NO_INTEGERS), vec![vec![b'7'; 300]]].concat()
}

const NO_INTEGERS: &[&str] =
    &["", "x", "+1", "-1", "1.0", "1 2", "0x1", "1000000", "0000001", "0000002", "12a", "1\t1", "\"1\""];

fn version(random: &mut Random) -> Vec<Vec<u8>> {
    let mut all = of(&["", "2.\t0", "\"2.0\"", "2", "02.0", "2.00", "1.1", "2,0", "v2.0", "2.0.", "2 0"]);
    all.push(lawful::text(random, 201));
    all.push(lawful::text(random, 100));
    all.push(vec![b'2'; 201]);
    all.push([&b"2.\t"[..], &[b'0'; 250]].concat());
    all
}

/// Texts at the limit, one above, far above; each also with a tab inside.
fn text(random: &mut Random, limit: usize) -> Vec<Vec<u8>> {
    let lengths = [limit, limit + 1, random.between(limit + 2, limit + 99), random.between(65, 199), 5];
    let plain = lengths.map(|length| lawful::text(random, length));
    let mut all = plain.to_vec();
    for mut text in plain {
        let inner = random.between(1, text.len() - 2);
        text[inner] = 9;
        all.push(text);
    }
    all
}

fn boolean() -> Vec<Vec<u8>> {
    let mut all = of(&["", "tRUE", "T", "F", "1", "0", "Yes", "FALSe", "true.", "t rue", "TrUe"]);
    all.push(vec![b'T'; 300]);
    all
}

fn must_be_empty(random: &mut Random) -> Vec<Vec<u8>> {
    let mut all = of(&["a\tb", "x", "ALL 1 2", "0"]);
    all.push(lawful::text(random, 201));
    all.push([lawful::text(random, 150), b"\t".to_vec(), lawful::text(random, 100)].concat());
    all
}

fn seconds() -> Vec<Vec<u8>> {
    [of(SECONDS), vec![vec![b'1'; 300]]].concat()
}

const SECONDS: &[&str] = &[
    "",
    "0",
    "0.0",
    "0.000000",
    "1/0",
    "0/5",
    "0/0",
    "1 0/3",
    "1 3/3",
    "1 5/3",
    "1 1/0",
    "0 0/1",
    "7/3",
    "0 1/3",
    "2 1/6",
    "4/6",
    "000001/000002",
    "999999 999998/999999",
    "999999.999999",
    "1/",
    "/2",
    "1 /2",
    "1/ 2",
    "1 / 2",
    "1  1/2",
    "1\t1/2",
    "1.0/2",
    "1 2",
    "1234567/2",
    "1/1234567",
    "1234567 1/2",
    "1234567",
    "0000001",
    "1000000",
    "1234567.5",
    "1.1234567",
    ".5",
    "5.",
    "1e3",
    "1E3",
    "1.5e2",
    "-1",
    "+1",
    "1,5",
    "x",
    "1/2/3",
    "1 1 1/2",
    "0/x",
    "0/",
    "1/x",
    "0.25",
    "1.50",
    "000000.000001",
    "3 2/4",
];

fn word(line: &DraftLine) -> Vec<Vec<u8>> {
    let (last, one_above) = (line.words.to_string(), (line.words + 1).to_string());
    number(&[&one_above, &last, "0", "000", "1024", "1025", "65537", "999999"])
}

fn bits(most: u64) -> Vec<Vec<u8>> {
    let above = most + 1;
    let named = [
        format!("{above}"),
        format!("{above}-1"),
        format!("{most}-{above}"),
        format!("{above}-{above}"),
        format!("1-{above}"),
        format!("{most}"),
        format!("{}-{above}", above + 1),
        format!("0-{above}"),
        format!("{most}-{most}"),
        format!("0{most}"),
        format!("1-{}", above + 20),
        format!("{}-1", above + 20),
    ];
    [named.map(String::into_bytes).to_vec(), of(BITS)].concat()
}

const BITS: &[&str] = &[
    "",
    "0",
    "00",
    "0-0",
    "0-1",
    "5-0",
    "4-1",
    "2-1",
    "1 - 1",
    "1 -1",
    "1- 1",
    "1-",
    "-1",
    "1-2-3",
    "0000001",
    "1-0000001",
    "1000000",
    "1 1",
    "1 2",
    "x",
    "1-x",
    "+1",
    "17",
    "33",
    "256",
    "257-258",
    "65537",
    "1--1",
    "999999",
];

const TIMES: &[&str] = &[
    "",
    "1000",
    "0001",
    "1000.5",
    "0000.5",
    "999999",
    ".5",
    "5.",
    "0.1234567",
    "1e1",
    "-1",
    "+1",
    "x",
    "1 1",
    "1/2",
    "WORD_OFFSET",
    "EQUAL_SPACED",
    "NOT_SPECIFIED",
    "PARAMETER:",
    "NONE",
    "HEADER:",
    "RECORD:",
    "0.5",
    "999.999999",
    "0.000001",
    "1.5.5",
];

fn value(random: &mut Random) -> Vec<Vec<u8>> {
    let mut all = of(&[
        "",
        "4294967295",
        "4294967296",
        "9999999999",
        "10000000000",
        "00000000001",
        "-1",
        "+1",
        "1 2",
        "x",
        "1.0",
        "4096",
        "65536",
        "00000000000",
        "0000000001",
        "1\t1",
    ]);
    all.push(vec![b'1'; 201]);
    all.push(lawful::text(random, 201));
    all
}

fn delay() -> Vec<Vec<u8>> {
    [of(DELAYS), vec![vec![b'1'; 300]]].concat()
}

const DELAYS: &[&str] = &[
    "1000000",
    "1234567.5",
    "0000001",
    ".5",
    "5.",
    "1.1234567",
    "1e3",
    "-1",
    "+1",
    "x",
    "1 1",
    "999999.999999",
    "0",
    "1/2",
    "000000.000000",
    "0.5.",
    "1.",
];

const LABELS: &[&str] = &[
    "", "8", "9", "378", "400", "777", "1777", "377o", "17o", "0377", "000", "0", "0000", "-1", "x", "3 7",
    "+7",
];
