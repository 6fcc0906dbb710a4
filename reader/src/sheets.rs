//! Sheets for the cases: lawful ones and faulty ones of every number.

use crate::breaks;
use crate::contents::{Component, Contents, Sample};
use crate::draft::{self, Draft, DraftLine, Kind};
use crate::faults;
use crate::judging;
use crate::large;
use crate::lawful;
use crate::misspellings::{self, Role};
use crate::overlap_breaks;
use crate::random::Random;

pub fn lawful(random: &mut Random) -> Vec<u8> {
    let contents = lawful::contents(random);
    draft::spell(random, &contents).bytes(random)
}

/// A sheet that is refused by this number, or after some tries any sheet
/// made for it.
pub fn refused_by(random: &mut Random, number: u8) -> Vec<u8> {
    let mut sheet = Vec::new();
    for _ in 0..60 {
        sheet = attempt(random, number);
        if judging::judge(&sheet).is_err_and(|refusal| refusal.number == number) {
            break;
        }
    }
    sheet
}

fn attempt(random: &mut Random, number: u8) -> Vec<u8> {
    match number {
        4 => at_the_end(random),
        9 => with_wrong_version(random),
        12 if random.percent(70) => overfull(random),
        14 if random.percent(60) => broken(random, overlap_breaks::rule_of_overlap),
        12 | 14 | 15 => broken(random, breaks::rule_of_12_to_15),
        16 => broken(random, breaks::rule_of_16),
        _ => one_fault(random),
    }
}

pub fn one_fault(random: &mut Random) -> Vec<u8> {
    let mut draft = any_draft(random);
    if random.percent(6) {
        faults::pairs(random, &mut draft);
    } else {
        faults::any(random, &mut draft);
    }
    draft.bytes(random)
}

fn any_draft(random: &mut Random) -> Draft {
    let contents = lawful::contents(random);
    draft::spell(random, &contents)
}

pub fn at_the_end(random: &mut Random) -> Vec<u8> {
    let contents = if random.percent(45) { lawful::frame_only(random) } else { lawful::contents(random) };
    let mut sheet = draft::spell(random, &contents).bytes(random);
    faults::at_the_end(random, &mut sheet);
    sheet
}

fn with_wrong_version(random: &mut Random) -> Vec<u8> {
    let mut draft = any_draft(random);
    let line = draft.lines[1].clone();
    draft.lines[1].fields[0] = misspellings::one(random, Role::Version, &line);
    draft.bytes(random)
}

pub fn broken(random: &mut Random, rule: fn(&mut Random, &mut Contents)) -> Vec<u8> {
    let mut contents = lawful::with_parameters(random);
    rule(random, &mut contents);
    draft::spell(random, &contents).bytes(random)
}

/// Two faults, so that the order of judging shows.
pub fn two_faults(random: &mut Random) -> Vec<u8> {
    match random.below(10) {
        0 | 1 => twice_in_a_line(random),
        2 => unequal_width_and_bad_time(random),
        3 => equal_names_and_bad_field(random),
        4 | 5 => broken_identifiers(random),
        6 => identifier_and_fault(random),
        7 => unlawful_sample_and_fault(random),
        8 => overlap_and_bad_time(random),
        _ => anywhere_twice(random),
    }
}

fn twice_in_a_line(random: &mut Random) -> Vec<u8> {
    let kind = if random.percent(30) { Kind::Component } else { *random.pick(&faults::FIELD_KINDS) };
    let mut draft = draft_with(random, kind);
    let index = *random.pick(&draft.places(kind));
    faults::two_fields(random, &mut draft.lines[index]);
    if kind == Kind::Component && random.percent(25) {
        draft.lines[index].fields[2] = b"1".to_vec();
    }
    draft.bytes(random)
}

/// A lawful draft that has a line of this kind.
fn draft_with(random: &mut Random, kind: Kind) -> Draft {
    loop {
        let draft = any_draft(random);
        if !draft.places(kind).is_empty() {
            return draft;
        }
    }
}

/// Every misspelling of every field in turn.
pub fn misspelled_in_turn(random: &mut Random, turn: usize) -> Vec<u8> {
    let (kind, field, spelling) = faults::in_turn(random, turn);
    let mut draft = draft_with(random, kind);
    let index = *random.pick(&draft.places(kind));
    faults::put(random, &mut draft.lines[index], field, spelling);
    draft.bytes(random)
}

/// Every fault in the order of lines in turn.
pub fn misordered_in_turn(random: &mut Random, turn: usize) -> Vec<u8> {
    let mut draft = draft_with(random, Kind::Label);
    match turn % 15 {
        fault @ 0..=4 => misorder_samples(random, &mut draft, fault),
        fault @ 5..=10 => misorder_sources(random, &mut draft, fault),
        11 => faults::pairs(random, &mut draft),
        12 => {
            let last_pair = draft.places(Kind::Record).pop().unwrap_or(0);
            draft.lines.truncate(last_pair + 1);
        }
        13 => {
            let component = *random.pick(&draft.places(Kind::Component));
            overlap_and_bad_bits(random, &mut draft.lines[component]);
        }
        _ => {
            let kind = *random.pick(&faults::FIELD_KINDS);
            let index = draft.places(kind).pop().unwrap_or(1);
            draft.lines[index] = blank_line();
        }
    }
    draft.bytes(random)
}

fn blank_line() -> DraftLine {
    DraftLine::of(Kind::LastBlank, vec![])
}

/// Samples left out, superframe lines and blank lines where none is due.
fn misorder_samples(random: &mut Random, draft: &mut Draft, fault: usize) {
    let opening = *random.pick(&draft.places(Kind::Parameter));
    let component = *random.pick(&draft.places(Kind::Component));
    let time = *random.pick(&draft.places(Kind::Time));
    let superframe = DraftLine { raw: Some(faults::superframe_line(random)), ..blank_line() };
    match fault {
        0 => drop_samples(draft, opening),
        1 => draft.lines.insert(opening + 1, superframe),
        2 => draft.lines.insert(component + 1, superframe),
        3 => draft.lines[time] = blank_line(),
        _ => draft.lines[component] = blank_line(),
    }
}

/// Label lines, sources and blank lines too many or too few.
fn misorder_sources(random: &mut Random, draft: &mut Draft, fault: usize) {
    let label = *random.pick(&draft.places(Kind::Label));
    let source_blank = *random.pick(&draft.places(Kind::SourceBlank));
    let last_blank = *random.pick(&draft.places(Kind::LastBlank));
    let source = DraftLine::of(Kind::Source, vec![vec![]; 3]);
    match fault {
        5 => draft.lines.insert(label, draft.lines[label].clone()),
        6 => draft.lines.insert(source_blank, source),
        7 => draft.lines[source_blank] = source,
        8 => drop(draft.lines.remove(last_blank)),
        9 => draft.lines.insert(last_blank, blank_line()),
        _ => drop(draft.lines.pop()),
    }
}

fn overlap_and_bad_bits(random: &mut Random, line: &mut DraftLine) {
    faults::field_from(random, line, 3);
    line.fields[2] = random.pick(&["1", "17", "20", "999999"]).as_bytes().to_vec();
}

/// Leaves the blank line after the samples right behind the 7-field line.
fn drop_samples(draft: &mut Draft, opening: usize) {
    while draft.lines[opening + 1].kind != Kind::SamplesBlank {
        draft.lines.remove(opening + 1);
    }
}

fn anywhere_twice(random: &mut Random) -> Vec<u8> {
    let mut draft = any_draft(random);
    faults::any(random, &mut draft);
    if !draft.lines.is_empty() {
        faults::any(random, &mut draft);
    }
    let mut sheet = draft.bytes(random);
    if random.percent(30) {
        faults::any_byte(random, &mut sheet);
    }
    sheet
}

/// A time line with an unequal width and a misspelled time.
fn unequal_width_and_bad_time(random: &mut Random) -> Vec<u8> {
    let mut contents = lawful::with_parameters(random);
    breaks::unequal_width(random, &mut contents);
    let mut draft = draft::spell(random, &contents);
    if let Err(refusal) = judging::judge(&draft.bytes(random)) {
        let index = (refusal.line as usize).saturating_sub(1);
        if draft.lines[index].kind == Kind::Time {
            faults::field(random, &mut draft.lines[index]);
        }
    }
    draft.bytes(random)
}

/// A time line with an overlap of the last component and a misspelled time.
fn overlap_and_bad_time(random: &mut Random) -> Vec<u8> {
    let mut draft = draft_with(random, Kind::Time);
    let time = *random.pick(&draft.places(Kind::Time));
    draft.lines[time - 1].fields[2] = random.pick(&["1", "2", "01"]).as_bytes().to_vec();
    faults::field(random, &mut draft.lines[time]);
    draft.bytes(random)
}

fn equal_names_and_bad_field(random: &mut Random) -> Vec<u8> {
    let mut contents = lawful::with_parameters(random);
    let mut again = contents.parameters[0].clone();
    again.mnemonic.clear();
    contents.parameters.push(again);
    let mut draft = draft::spell(random, &contents);
    let last = draft.places(Kind::Parameter).pop().unwrap_or(0);
    faults::field_from(random, &mut draft.lines[last], 1);
    draft.bytes(random)
}

/// Two or three identifiers broken, in a frame of several subframes.
fn broken_identifiers(random: &mut Random) -> Vec<u8> {
    let mut contents = lawful::with_parameters(random);
    while contents.subframes.len() < 2 {
        contents = lawful::with_parameters(random);
    }
    for _ in 0..random.between(2, 3) {
        breaks::clause_of_16(random, &mut contents);
    }
    draft::spell(random, &contents).bytes(random)
}

/// A broken identifier and a fault in the last parameter's lines.
fn identifier_and_fault(random: &mut Random) -> Vec<u8> {
    let mut contents = lawful::with_parameters(random);
    breaks::clause_of_16(random, &mut contents);
    let mut draft = draft::spell(random, &contents);
    let last = draft.places(Kind::ParameterKeyword).pop().unwrap_or(0);
    let index = random.between(last, draft.lines.len() - 1);
    faults::at(random, &mut draft, index);
    draft.bytes(random)
}

fn unlawful_sample_and_fault(random: &mut Random) -> Vec<u8> {
    let mut contents = lawful::with_parameters(random);
    breaks::rule_of_12_to_15(random, &mut contents);
    let mut draft = draft::spell(random, &contents);
    faults::any(random, &mut draft);
    draft.bytes(random)
}

/// A full sample or parameter, and one line more.
pub fn overfull(random: &mut Random) -> Vec<u8> {
    let mut contents = lawful::with_parameters(random);
    let bits: Vec<Component> = breaks::all_single_bits(&contents).take(9).collect();
    let index = random.below(contents.parameters.len());
    let by_components = bits.len() == 9 && random.percent(60);
    let samples = &mut contents.parameters[index].samples;
    if by_components {
        *samples = vec![Sample { time: 0, components: bits[..8].to_vec() }];
    } else {
        let first = samples[0].clone();
        samples.resize(64, first);
    }
    let mut draft = draft::spell(random, &contents);
    let opening = draft.places(Kind::ParameterKeyword)[index];
    let end = if by_components { Kind::Time } else { Kind::SamplesBlank };
    let place = draft.places(end).into_iter().find(|&at| at > opening).unwrap_or(opening);
    let line = draft::component_line(random, &contents, &bits[bits.len() - 1]);
    draft.lines.insert(place, one_line_more(random, line));
    draft.bytes(random)
}

/// A component line, sound or not, or another line in its place.
fn one_line_more(random: &mut Random, mut line: DraftLine) -> DraftLine {
    if random.percent(50) {
        let stands = ["x,y,z,w", "1,1,0", "1,1,0,1,1", "9,9,9,9", "a,b", ",,,", ",,,,", "1,1,0,0"];
        line.raw = Some(random.pick(&stands).as_bytes().to_vec());
    } else if random.percent(40) {
        faults::field(random, &mut line);
    }
    line
}

/// Random bytes changed in a lawful sheet.
pub fn random_bytes(random: &mut Random) -> Vec<u8> {
    let mut sheet = lawful(random);
    for _ in 0..random.between(1, 3) {
        if !sheet.is_empty() {
            faults::any_byte(random, &mut sheet);
        }
    }
    sheet
}

/// A sheet of more than 65,536 bytes, lawful otherwise or not.
pub fn oversized(random: &mut Random) -> Vec<u8> {
    let mut sheet = large::sheet_of_size(random, 65_537);
    match random.below(6) {
        0 => sheet[0] = 200,
        1 => sheet[3] = b'x',
        2 => sheet = vec![b'x'; 65_537],
        3 => sheet.extend(b"PARAMETER:\n"),
        _ => {}
    }
    sheet
}

/// A sheet of exactly 65,536 bytes.
pub fn full_sized(random: &mut Random) -> Vec<u8> {
    let mut sheet = large::sheet_of_size(random, 65_536);
    if random.percent(25) {
        let last = sheet.len() - 1;
        sheet[last] = b' ';
    }
    sheet
}

/// Sheets at and one beyond the count limits, in turn.
pub fn at_count_limits(random: &mut Random, turn: usize) -> Vec<u8> {
    let mut sheet = large::plain_sheet(&match turn % 8 {
        0 => large::of_parameters(random, 512),
        1 | 7 => large::of_parameters(random, 513),
        2 => large::of_samples(random, 4096),
        3 => large::of_samples(random, 4097),
        4 => large::of_components(4096),
        5 => large::of_components(4097),
        _ => large::table_above_65536(random),
    });
    if turn % 8 == 7 {
        // The parameter too many has a faulty second line, too.
        let place = sheet.len() - 40;
        sheet.truncate(place);
    }
    sheet
}
