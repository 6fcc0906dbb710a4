//! Smallest cases of each form, of the card calls, of overlap and of pages,
//! for the trial program's stored case file.

use crate::cases::Case;
use crate::judging;
use crate::listings::wall_with;
use crate::making;
use crate::smallest_overlap;
use crate::smallest_page;

/// Each with what it shows.
pub type Shown = (&'static str, Case);

pub fn cases() -> Vec<Shown> {
    let forms = [made(), checked(), of_unknown_margins()].concat();
    let cards = [found(), refused(), margins_unknown(), positions(), unlike_subframes(), from_on()].concat();
    [forms, cards, smallest_overlap::cases(), smallest_page::cases()].concat()
}

const BARE: &str = "HEADER:\n2.0,,A,,,1,,,True,,,1,,\nRECORD:\n12,4,,,1.0\nNONE\n";

/// Two subframes of unlike bits and margins; the second one's identifier has
/// two components.
const UNLIKE: &str = "HEADER:\n2.0,,A,,,1,,,True,,,2,,\nRECORD:\n8,1,2,1,1\nRECORD:\n5,2,0,3,1\n\
PARAMETER:\nA,,,True,,,\n1,1,0,1-8\n0\n\nFalse,,,,\n9,,,\n,,\n\n\n\
PARAMETER:\nB,,,True,,,\n2,1,0,1-3\n2,2,0,4-5\n0\n\nFalse,,,,\n22,,,\n,,\n\n\n";

pub fn table(sheet: &str) -> Vec<u8> {
    judging::judge(sheet.as_bytes()).map_or(vec![], |contents| making::table_bytes(&contents))
}

pub fn table_of(form: usize, sheet: &str) -> Vec<u8> {
    judging::judge(sheet.as_bytes()).map_or(vec![], |contents| making::table_of_form(form, &contents))
}

fn of_form_1(sheet: &str) -> Vec<u8> {
    table_of(1, sheet)
}

/// The wall's table as its sheet is, with blank margins.
fn blank() -> Vec<u8> {
    table(&wall_with(","))
}

/// The wall's table, known to have no margins.
fn wall() -> Vec<u8> {
    table(&wall_with("0,0"))
}

/// The wall's table with 3 leading bits and 1 trailing bit.
fn with_margins() -> Vec<u8> {
    table(&wall_with("3,1"))
}

fn made() -> Vec<Shown> {
    let make = |margins: &str| Case::Make { sheet: wall_with(margins).into_bytes(), lent: 140 };
    vec![
        ("margins known", make("3,1")),
        ("leading bits unknown", make(",1")),
        ("trailing bits unknown", make("3,")),
        ("11: 65535 is no spelling of unknown leading bits", make("65535,")),
        ("11: 65535 is no spelling of unknown trailing bits", make(",65535")),
    ]
}

/// The wall's table with another form and other margins.
fn checked() -> Vec<Shown> {
    let check = |form: u16, leading: u16, trailing: u16| {
        let mut table = table_of(if form == 1 || form == 2 { form.into() } else { 3 }, &wall_with(","));
        table[14..16].copy_from_slice(&form.to_le_bytes());
        table[40..44].copy_from_slice(&[leading.to_le_bytes(), trailing.to_le_bytes()].concat());
        Case::Check { table }
    };
    vec![
        ("form 1, 4,095 bits", check(1, 4095, 4095)),
        ("18: form 1, 4,096 leading bits", check(1, 4096, 0)),
        ("18: form 1, 4,096 trailing bits", check(1, 0, 4096)),
        ("18: form 1, leading bits unknown", check(1, 65_535, 0)),
        ("18: form 1, trailing bits unknown", check(1, 0, 65_535)),
        ("form 2, 4,095 bits", check(2, 4095, 4095)),
        ("form 2, leading bits unknown", check(2, 65_535, 0)),
        ("form 2, trailing bits unknown", check(2, 0, 65_535)),
        ("18: form 2, 4,096 leading bits", check(2, 4096, 65_535)),
        ("18: form 2, 4,096 trailing bits", check(2, 65_535, 4096)),
        ("18: form 2, 65,534 leading bits", check(2, 65_534, 65_535)),
        ("18: form 2, 65,534 trailing bits", check(2, 65_535, 65_534)),
        ("form 3, 4,095 bits", check(3, 4095, 4095)),
        ("form 3, leading bits unknown", check(3, 65_535, 0)),
        ("form 3, trailing bits unknown", check(3, 0, 65_535)),
        ("18: form 3, 4,096 leading bits", check(3, 4096, 65_535)),
        ("18: form 3, 65,534 trailing bits", check(3, 65_535, 65_534)),
        ("18: form 0", check(0, 0, 0)),
        ("18: form 4", check(4, 0, 0)),
        ("18: form 259, whose low byte is 3", check(259, 0, 0)),
    ]
}

/// All but cards is as it was: by form 1 the stored file has it already.
fn of_unknown_margins() -> Vec<Shown> {
    let (table, frame) = (blank(), vec![583, 5, 0, 6]);
    let (parameter, sample) = (2, 1);
    let of_form_2 = table_of(2, &wall_with(","));
    vec![
        ("Pitch read by form 2", Case::Read { table: of_form_2, frame: frame.clone(), parameter, sample }),
        ("Pitch read", Case::Read { table: table.clone(), frame: frame.clone(), parameter, sample }),
        (
            "Pitch placed",
            Case::Place { table: table.clone(), frame: frame.clone(), parameter, sample, value: 63 },
        ),
        ("the frame compared", Case::Compare { table: table.clone(), frame }),
        ("Pitch named", Case::Name { table: table.clone(), parameter }),
        ("Pitch named by PCH", Case::Mnemonic { table, mnemonic: b"PCH".to_vec() }),
    ]
}

/// The wall's frame behind 4 bits and 3 leading ones; its trailing bit ends it.
const REFERENCE: [u8; 7] = [0xa0, 0x23, 0x29, 0, 0, 0x30, 0x80];

/// Numbers of so many bits each, one after the other, the low bit first.
pub fn packed(pieces: &[(u64, usize)]) -> Vec<u8> {
    let bits: Vec<u64> =
        pieces.iter().flat_map(|&(number, count)| (0..count).map(move |bit| number >> bit & 1)).collect();
    bits.chunks(8).map(|byte| byte.iter().rev().fold(0, |sum, &bit| 2 * sum + bit as u8)).collect()
}

const FRAME: [(u64, usize); 4] = [(583, 12), (5, 12), (0, 12), (6, 12)];

/// The wall's frame behind so many bits of 1.
fn behind(bits: usize) -> Vec<u8> {
    packed(&[&[(u64::MAX, bits)], &FRAME[..]].concat())
}

pub fn card(table: Vec<u8>, stream: &[u8], lent: usize) -> Case {
    Case::Card { table, stream: stream.to_vec(), lent }
}

fn found() -> Vec<Shown> {
    vec![
        ("margins, every word lent", card(with_margins(), &REFERENCE, 4)),
        ("margins, a word too few", card(with_margins(), &REFERENCE, 3)),
        ("margins, words beyond the frame stay", card(with_margins(), &REFERENCE, 6)),
        ("the wall's frame alone", card(wall(), &behind(0), 4)),
    ]
}

/// Later faults are left in: 18, 27, 26, 38, 25, 28.
fn refused() -> Vec<Shown> {
    let mut cut = wall();
    cut.pop();
    vec![
        ("18: a table's last byte missing", card(cut, &[], 0)),
        ("27: no parameters", card(table(BARE), &[], 0)),
        ("27: no parameters, though a frame fits", card(table(BARE), &behind(0), 4)),
        ("38: a byte too many", card(wall(), &[0; 65_537], 0)),
        ("25: an empty stream", card(wall(), &[], 4)),
        ("25 before 28", card(wall(), &[], 0)),
        ("25: the last word's last bits missing", card(wall(), &behind(0)[..5], 4)),
        ("25: the last trailing bit missing", card(with_margins(), &packed_behind_five()[..7], 4)),
        ("25: a bit of the identifier", card(wall(), &packed(&[(582, 12), (0, 36)]), 4)),
        ("28: a word too few", card(wall(), &behind(0), 3)),
        ("28: none lent", card(wall(), &behind(0), 0)),
    ]
}

/// In either margin, in any subframe, and always in form 1.
fn margins_unknown() -> Vec<Shown> {
    let first = UNLIKE.replace("8,1,2,1,1", "8,1,2,,1");
    let second = UNLIKE.replace("5,2,0,3,1", "5,2,,3,1");
    vec![
        ("27: no parameters, form 1", card(of_form_1(BARE), &behind(0), 4)),
        ("26: both margins unknown", card(blank(), &behind(0), 4)),
        ("26: leading bits unknown", card(table(&wall_with(",1")), &REFERENCE, 4)),
        ("26: trailing bits unknown", card(table(&wall_with("3,")), &REFERENCE, 4)),
        ("26: form 1, margins of 0", card(of_form_1(&wall_with("0,0")), &behind(0), 4)),
        ("26: form 1, no margin of 0", card(of_form_1(&wall_with("3,1")), &REFERENCE, 4)),
        ("26: unknown in the first subframe alone", card(table(&first), &[0; 9], 3)),
        ("26: unknown in the last subframe alone", card(table(&second), &[0; 9], 3)),
        ("26 before 38", card(blank(), &[0; 65_537], 0)),
        ("26 before 25 and 28", card(of_form_1(&wall_with("3,1")), &[], 0)),
    ]
}

/// The reference stream with one bit more before it.
fn packed_behind_five() -> Vec<u8> {
    packed(&[&[(0, 5), (2, 3)], &FRAME[..], &[(1, 1)]].concat())
}

/// At every offset within a byte; a near frame before the agreeing one.
fn positions() -> Vec<Shown> {
    let each = (1..=8).map(|bits| ("an offset of 1 to 8 bits", card(wall(), &behind(bits), 4)));
    let near = packed(&[&[(583 + 2048, 12), (0, 36)], &FRAME[..]].concat());
    each.chain([("a near frame first", card(wall(), &near, 4))]).collect()
}

fn unlike_subframes() -> Vec<Shown> {
    let frame = |second: u64| [(3, 2), (9, 8), (1, 1), (second, 5), (16, 5), (7, 3)];
    let one = |second| packed(&[&[(0, 3)], &frame(second)[..]].concat());
    let two = packed(&[&[(0, 3)], &frame(7)[..], &[(0, 2)], &frame(6)[..]].concat());
    vec![
        ("unlike subframes", card(table(UNLIKE), &one(6), 3)),
        ("only subframe 1 agrees", card(table(UNLIKE), &one(7), 3)),
        ("only subframe 1 agrees in the first frame", card(table(UNLIKE), &two, 4)),
    ]
}

/// Two frames at once, at 0 and at 48, in 96 bits.
fn from_on() -> Vec<Shown> {
    let stream = packed(&[FRAME, FRAME].concat());
    let from = |table: Vec<u8>, from, lent| Case::CardFrom { table, stream: stream.clone(), from, lent };
    vec![
        ("from 0", from(wall(), 0, 4)),
        ("from a bit on", from(wall(), 1, 4)),
        ("from the position", from(wall(), 48, 5)),
        ("from beyond the position", from(wall(), 49, 4)),
        ("from the end", from(wall(), 96, 4)),
        ("from beyond the end", from(wall(), 97, 0)),
        ("from the highest number", from(wall(), u32::MAX, 4)),
        ("from 2 to the 32, less a frame", from(wall(), u32::MAX - 47, 4)),
        ("28: a word too few", from(wall(), 48, 3)),
        ("27: no parameters", from(table(BARE), 97, 0)),
        ("26: both margins unknown", from(blank(), 0, 4)),
        ("26: form 1", from(of_form_1(&wall_with("0,0")), 97, 0)),
        ("18: no bytes", from(vec![], 97, 0)),
    ]
}

#[cfg(test)]
mod tests {
    use super::*;

    /// Lines of the smallest cases that show this.
    fn lines(shown: &str) -> Vec<String> {
        cases().iter().filter(|(what, _)| *what == shown).map(|(_, case)| case.line()).collect()
    }

    #[test]
    fn reference_lines() {
        assert_eq!(lines("margins, every word lent"), ["8 0 4 4 1323624288"]);
        assert_eq!(lines("margins, a word too few"), ["8 28 0 0 2811814642"]);
    }

    #[test]
    fn positions_by_hand() {
        let starts = lines("an offset of 1 to 8 bits");
        let due: Vec<String> = (1..=8).map(|bits| format!("8 0 {bits} 4 1323624288")).collect();
        assert_eq!(starts, due);
        assert_eq!(lines("a near frame first"), ["8 0 48 4 1323624288"]);
        assert_eq!(lines("from a bit on"), ["10 0 48 4 1323624288"]);
        assert_eq!(lines("from the highest number"), ["10 25 0 0 1081900512"]);
        assert!(lines("only subframe 1 agrees")[0].starts_with("8 25 0 0 "));
        assert!(lines("only subframe 1 agrees in the first frame")[0].starts_with("8 0 29 3 "));
    }

    #[test]
    fn each_number_has_its_case() {
        for (what, case) in cases() {
            let (number, _) = what.split_once(|c: char| !c.is_ascii_digit()).unwrap_or((what, ""));
            if !number.is_empty() {
                assert_eq!(case.line().split(' ').nth(1), Some(number), "{what}");
            }
        }
    }
}
