//! Faults in a draft's lines: a kind of line is chosen, then a fault for it.

use crate::draft::{Draft, DraftLine, Kind};
use crate::lawful;
use crate::misspellings::{self, Role};
use crate::random::Random;

/// One fault at a random kind of line; answers the index of the line.
pub fn any(random: &mut Random, draft: &mut Draft) -> usize {
    let kind = *random.pick(&kinds(draft));
    let index = line_of(random, draft, kind);
    at(random, draft, index);
    index
}

fn kinds(draft: &Draft) -> Vec<Kind> {
    let mut kinds: Vec<Kind> = Vec::new();
    for line in &draft.lines {
        if !kinds.contains(&line.kind) {
            kinds.push(line.kind);
        }
    }
    kinds
}

fn line_of(random: &mut Random, draft: &Draft, kind: Kind) -> usize {
    *random.pick(&draft.places(kind))
}

/// One fault at this line.
pub fn at(random: &mut Random, draft: &mut Draft, index: usize) {
    let line = draft.lines[index].clone();
    if random.percent(8) {
        whole_line(random, draft, index);
        return;
    }
    if random.percent(8) {
        draft.lines[index].raw = Some(bad_bytes(random, &line));
        return;
    }
    match line.fields.len() {
        0 => blank(random, draft, index),
        1 if line.kind != Kind::Time => keyword(random, draft, index),
        _ if random.percent(15) => field_count(random, &mut draft.lines[index]),
        _ => field(random, &mut draft.lines[index]),
    }
}

/// Lines deleted, doubled, swapped, or one put in.
fn whole_line(random: &mut Random, draft: &mut Draft, index: usize) {
    let line = draft.lines[index].clone();
    match random.below(5) {
        0 => drop(draft.lines.remove(index)),
        1 => draft.lines.insert(index, line),
        2 if index + 1 < draft.lines.len() => draft.lines.swap(index, index + 1),
        3 => draft.lines.insert(index, DraftLine::of(line.kind, vec![])),
        _ => {
            let other = random.pick(&draft.lines).clone();
            draft.lines.insert(index, other);
        }
    }
}

/// Bytes of a line with a fault of 2 or 3, or just within the limit.
fn bad_bytes(random: &mut Random, line: &DraftLine) -> Vec<u8> {
    let mut bytes = line.fields.join(&b',');
    let to_length = |bytes: &mut Vec<u8>, length: usize| bytes.resize(length.max(bytes.len()), b' ');
    match random.below(8) {
        0 => to_length(&mut bytes, 1024),
        1 => to_length(&mut bytes, 1025),
        2 => {
            to_length(&mut bytes, 1025);
            bytes[1000] = *random.pick(&[13, 200]);
        }
        3 => bytes.push(13),
        4 => bytes.resize(1100, b'x'),
        _ => {
            let place = random.between(0, bytes.len());
            bytes.insert(place, *random.pick(&[0, 1, 8, 11, 12, 13, 27, 31, 127, 128, 200, 255]));
        }
    }
    bytes
}

fn blank(random: &mut Random, draft: &mut Draft, index: usize) {
    let at_superframe_line = draft.lines[index].kind == Kind::SamplesBlank && random.percent(60);
    if at_superframe_line {
        draft.lines[index].raw = Some(superframe_line(random));
        return;
    }
    match random.below(5) {
        0 | 1 => drop(draft.lines.remove(index)),
        2 => {
            let again = draft.lines[index].clone();
            draft.lines.insert(index, again);
        }
        _ => {
            let stands: [&[u8]; 8] = [b"x", b",", b",,", b"a,b", b"PARAMETER:", b"NONE", b"1,1,0,1", b",,,"];
            draft.lines[index].raw = Some(random.pick(&stands).to_vec());
        }
    }
}

pub fn superframe_line(random: &mut Random) -> Vec<u8> {
    match random.below(8) {
        0 => b",".to_vec(),
        1 => b" , ".to_vec(),
        2 => b"Counter,".to_vec(),
        3 => b"Cou\tnter,1".to_vec(),
        4 => [lawful::text(random, 201), b",1".to_vec()].concat(),
        5 => b",1 2 3".to_vec(),
        _ => b"Counter,1 2 3".to_vec(),
    }
}

fn keyword(random: &mut Random, draft: &mut Draft, index: usize) {
    let line = draft.lines[index].clone();
    let mut word = line.fields[0].clone();
    match random.below(9) {
        0 => word.make_ascii_lowercase(),
        1 => word[1..].make_ascii_lowercase(),
        2 => word.push(b','),
        3 => drop(word.pop()),
        4 => {
            let place = random.between(1, word.len() - 1);
            word.insert(place, *random.pick(b" \t"));
        }
        5 => {
            let last = word.len() - 1;
            word.insert(last, b' ');
        }
        6 => word.push(b'x'),
        7 => word = other_keyword(random),
        _ => {
            pair_or_parameter(random, draft, index);
            return;
        }
    }
    draft.lines[index].raw = Some(word);
}

fn other_keyword(random: &mut Random) -> Vec<u8> {
    let words: [&[u8]; 6] = [b"HEADER:", b"RECORD:", b"PARAMETER:", b"NONE", b"", b"\t"];
    random.pick(&words).to_vec()
}

/// A pair more or less; a parameter's keyword left out or doubled.
fn pair_or_parameter(random: &mut Random, draft: &mut Draft, index: usize) {
    let is_pair = draft.lines[index].kind == Kind::RecordKeyword;
    let length = if is_pair { 2 } else { 1 };
    let end = (index + length).min(draft.lines.len());
    if random.percent(50) {
        let again: Vec<DraftLine> = draft.lines[index..end].to_vec();
        draft.lines.splice(index..index, again);
    } else {
        draft.lines.drain(index..end);
    }
}

/// A pair of `RECORD:` lines more or less than there are.
pub fn pairs(random: &mut Random, draft: &mut Draft) {
    let index = line_of(random, draft, Kind::RecordKeyword);
    pair_or_parameter(random, draft, index);
    if random.percent(30) {
        let index = line_of(random, draft, Kind::HeaderKeyword);
        draft.lines[index + 1].fields[11] = random.between(2, 5).to_string().into_bytes();
    }
}

fn field_count(random: &mut Random, line: &mut DraftLine) {
    match random.below(5) {
        0 => line.fields.push(vec![]),
        1 => drop(line.fields.pop()),
        2 => {
            let place = random.below(line.fields.len());
            line.fields.remove(place);
        }
        3 => line.fields.insert(0, vec![]),
        _ => {
            let field = random.below(line.fields.len());
            line.fields[field] = b"\"a,b\"".to_vec();
        }
    }
}

/// A misspelled or unlawful field, by what the field holds.
pub fn field(random: &mut Random, line: &mut DraftLine) {
    if line.fields.is_empty() {
        line.raw = Some(b"x".to_vec());
        return;
    }
    let roles = roles(line.kind);
    if roles.len() != line.fields.len() {
        return field_count(random, line);
    }
    let index = random.below(roles.len());
    line.fields[index] = misspellings::one(random, roles[index], line);
}

/// Kinds of lines whose fields have roles.
pub const FIELD_KINDS: [Kind; 10] = [
    Kind::Header,
    Kind::Record,
    Kind::Parameter,
    Kind::Component,
    Kind::Time,
    Kind::Signed,
    Kind::Range,
    Kind::IdentifierRange,
    Kind::Source,
    Kind::Label,
];

/// Every kind of line, every field of it, and every misspelling in turn.
pub fn in_turn(random: &mut Random, turn: usize) -> (Kind, usize, usize) {
    let places: Vec<(Kind, usize, usize)> = FIELD_KINDS
        .into_iter()
        .flat_map(|kind| (0..roles(kind).len()).map(move |field| (kind, field)))
        .flat_map(|(kind, field)| {
            let count = misspellings::all(random, roles(kind)[field], &DraftLine::of(kind, vec![])).len();
            (0..count).map(move |spelling| (kind, field, spelling))
        })
        .collect();
    places[turn % places.len()]
}

/// Puts the numbered misspelling into the field.
pub fn put(random: &mut Random, line: &mut DraftLine, field: usize, spelling: usize) {
    line.fields[field] = misspellings::all(random, roles(line.kind)[field], line)[spelling].clone();
}

/// Two fields of this line, both misspelled.
pub fn two_fields(random: &mut Random, line: &mut DraftLine) {
    let roles = roles(line.kind);
    if roles.len() < 2 || roles.len() != line.fields.len() {
        return field(random, line);
    }
    let first = random.below(roles.len());
    let second = (first + random.between(1, roles.len() - 1)) % roles.len();
    for index in [first, second] {
        line.fields[index] = misspellings::one(random, roles[index], line);
    }
}

/// A fault in a field of this line from `first` on.
pub fn field_from(random: &mut Random, line: &mut DraftLine, first: usize) {
    let roles = roles(line.kind);
    if roles.len() != line.fields.len() {
        return;
    }
    let index = random.between(first, roles.len() - 1);
    line.fields[index] = misspellings::one(random, roles[index], line);
}

fn roles(kind: Kind) -> &'static [Role] {
    use Role::*;
    match kind {
        Kind::Header => &[
            Version,
            Text,
            MandatoryText,
            Text,
            Text,
            MandatoryText,
            Text,
            Text,
            Boolean,
            Empty,
            Empty,
            Subframes,
            Text,
            Text,
        ],
        Kind::Record => &[WordBits, Words, Margin, Margin, Seconds],
        Kind::Parameter => &[Name, OtherName, OtherName, Boolean, Empty, Text, Text],
        Kind::Component => &[Subframe, Word, Overlap, Bits],
        Kind::Time => &[Time],
        Kind::Signed => &[Boolean, Empty, Empty, Text, Empty],
        Kind::Range => &[Text, Empty, Text, Delay],
        Kind::IdentifierRange => &[Value, Empty, Text, Delay],
        Kind::Source => &[Text, Text, Text],
        Kind::Label => &[OptionalBoolean, Label, SourceBits, Text],
        _ => &[],
    }
}

/// Bytes after the end, or a cut; on the sheet's bytes.
pub fn at_the_end(random: &mut Random, sheet: &mut Vec<u8>) {
    let long = vec![b'x'; 1025];
    let long_blank = vec![b' '; 1025];
    match random.below(16) {
        0 => sheet.push(b'x'),
        1 => sheet.push(b' '),
        2 => sheet.extend(b"x\n"),
        3 => sheet.extend(b"\n"),
        4 => sheet.extend(b" \t\n"),
        5 => sheet.extend(b"\xc8\n"),
        6 => sheet.extend(b"\xc8"),
        7 => sheet.extend([long, vec![10]].concat()),
        8 => sheet.extend(long),
        9 => sheet.extend([long_blank, vec![10]].concat()),
        10 => sheet.extend(b"PARAMETER:"),
        11 => sheet.extend(random.pick(&["NONE\n", "PARAMETER:\n", "RECORD:\n", "HEADER:\n"]).bytes()),
        12 => drop(sheet.pop()),
        13 => cut_at_line(random, sheet),
        14 => {
            cut_at_line(random, sheet);
            let rests = [vec![200; 3], vec![200; 2000], long, b"PARAMETER:".to_vec(), b"1,1".to_vec()];
            sheet.extend(random.pick(&rests));
        }
        _ => sheet.truncate(random.below(sheet.len())),
    }
}

fn cut_at_line(random: &mut Random, sheet: &mut Vec<u8>) {
    let ends: Vec<usize> = (0..sheet.len()).filter(|&at| sheet[at] == 10).collect();
    let early = random.percent(40);
    let end = if early { ends[random.below(ends.len().min(6))] } else { *random.pick(&ends) };
    sheet.truncate(end + 1);
}

/// A changed, added or dropped byte anywhere.
pub fn any_byte(random: &mut Random, sheet: &mut Vec<u8>) {
    let place = random.below(sheet.len());
    let byte = *random.pick(b"\n\n,,  \t0123456789-./:TFx\"\r\x00\x7f\xff");
    match random.below(4) {
        0 => drop(sheet.remove(place)),
        1 => sheet.insert(place, byte),
        2 => sheet[place] = byte,
        _ => sheet[place] = random.next() as u8,
    }
}
