//! Smallest cases of form 3 and of samples with overlap, for the trial
//! program's stored case file.

use crate::cases::Case;
use crate::listings::{wall_with, WALL};
use crate::smallest::{card, packed, table, table_of, Shown};

pub fn cases() -> Vec<Shown> {
    [made(), refused_14(), checked(), read(), placed(), identifiers(), cards()].concat()
}

/// The wall's sheet with other components of Pitch, in lines of their own.
fn pitch(components: &str) -> String {
    WALL.replace("1,2,0,1-4\n1,4,0,2-3\n", components)
}

/// The section's shape: 12 bits with overlap 1, then 7 bits.
const SECTION: &str = "1,2,1,1-12\n1,4,0,1-7\n";

/// Each of the first two overlaps more bits than the next one has by itself.
const THREE_FOLD: &str = "1,2,7,1-8\n1,3,6,1-8\n1,4,0,1-8\n";

/// The wall's sheet with a Sync of 8 bits with overlap 2, then 6 bits.
fn sync(value: &str) -> String {
    wall_with("0,0").replace("1,1,0,1-12\n", "1,1,2,1-8\n1,3,0,1-6\n").replace("583,", &format!("{value},"))
}

fn make(sheet: String, lent: usize) -> Case {
    Case::Make { sheet: sheet.into_bytes(), lent }
}

fn made() -> Vec<Shown> {
    let second = |components: &str| pitch(&format!("{SECTION}0\n{components}"));
    vec![
        ("form 3, 12 bits with overlap 1, then 7 bits", make(pitch(SECTION), 140)),
        ("17: form 3, a byte too few", make(pitch(SECTION), 139)),
        ("an overlap of all bits but one", make(pitch("1,2,11,1-12\n1,4,0,1-12\n"), 140)),
        ("an overlap of all the next one's bits", make(pitch("1,2,7,1-12\n1,4,0,1-7\n"), 140)),
        ("three components, each bit but two in two or three", make(pitch(THREE_FOLD), 148)),
        ("joined to 32 bits of 36", make(pitch("1,2,2,1-12\n1,3,2,1-12\n1,4,0,1-12\n"), 148)),
        ("two samples of 18 bits, with overlap and without", make(second("1,2,0,1-12\n1,4,0,7-12\n"), 164)),
        ("overlap spelled 000001", make(pitch("1,2,000001,1-12\n1,4,0,1-7\n"), 140)),
    ]
}

fn refused_14() -> Vec<Shown> {
    let refused = |components: &str| make(pitch(components), 256);
    vec![
        ("14: an overlap of all its own bits", refused("1,2,12,1-12\n1,4,0,1-12\n")),
        ("14: an overlap of 999999", refused("1,2,999999,1-12\n1,4,0,1-12\n")),
        ("14: an overlap of 256", refused("1,2,256,1-12\n1,4,0,1-12\n")),
        ("14: an overlap above the next one's bits", refused("1,2,8,1-12\n1,4,0,1-7\n")),
        ("14: an overlap of the last component", refused("1,2,1,1-12\n1,4,1,1-7\n")),
        ("14: an overlap of the only component", refused("1,2,1,1-12\n")),
        ("14: 33 bits joined so far, 31 with the next", refused("1,2,0,1-12\n1,3,0,1-12\n1,4,8,1-9\n")),
        ("14: copies in the same bits of the frame", refused("1,2,1,1-12\n1,2,0,12\n")),
        (
            "14: a second sample of 18 bits that joins to 17",
            refused("1,2,0,1-12\n1,4,0,1-6\n0\n1,2,1,1-12\n1,4,0,1-6\n"),
        ),
        ("8: no overlap", refused("1,2,,1-12\n1,4,0,1-7\n")),
        ("6: an overlap of seven digits", refused("1,2,0000001,1-12\n1,4,0,1-7\n")),
        ("11: bits 0 before the overlap's 14", refused("1,2,12,0\n1,4,0,1-7\n")),
        ("6: the time before the last overlap's 14", refused("1,2,1,1-12\n1,4,1,1-7\nx\n")),
    ]
}

/// The section's table with one byte of a component of Pitch changed; its
/// components stand from byte 112 and from 120 on.
fn checked() -> Vec<Shown> {
    let sound = table(&pitch(SECTION));
    let check = |at: usize, byte: u8| {
        let mut table = sound.clone();
        table[at] = byte;
        Case::Check { table }
    };
    let check_form = |form: u8, laid_out: usize| {
        let mut table = table_of(laid_out, WALL);
        table[14] = form;
        Case::Check { table }
    };
    vec![
        ("form 3, overlap 1", check(118, 1)),
        ("form 3, overlap 0", check(118, 0)),
        ("form 3, as much overlap as the next one's bits", check(118, 7)),
        ("18: form 3, an overlap above the next one's bits", check(118, 8)),
        ("18: form 3, an overlap of all its own bits", check(118, 12)),
        ("18: form 3, an overlap of 255", check(118, 255)),
        ("18: form 3, an overlap of the last component", check(126, 1)),
        ("18: form 3, an overlap of the only component", check(110, 1)),
        ("18: form 3, a zero byte of 1", check(119, 1)),
        ("18: form 3, the last zero byte of 128", check(127, 128)),
        ("18: form 3, components of 6 bytes", check_form(3, 2)),
        ("18: form 2, components of 8 bytes", check_form(2, 3)),
        ("18: form 1, components of 8 bytes", check_form(1, 3)),
    ]
}

fn read() -> Vec<Shown> {
    let read = |components: &str, frame: [u16; 4]| {
        let table = table(&pitch(components));
        Case::Read { table, frame: frame.to_vec(), parameter: 2, sample: 1 }
    };
    vec![
        ("copies agree", read(SECTION, [583, 2048, 0, 1])),
        ("copies differ, the higher one set", read(SECTION, [583, 0, 0, 1])),
        ("copies differ, the lower one set", read(SECTION, [583, 2048, 0, 0])),
        ("copies agree, minus 1", read(SECTION, [583, 4095, 0, 127])),
        ("copies differ, minus 1", read(SECTION, [583, 2047, 0, 127])),
        ("20: though copies differ", read(SECTION, [583, 0, 4096, 1])),
        ("three copies agree", read(THREE_FOLD, [583, 157, 206, 179])),
        ("the lowest of three copies differs", read(THREE_FOLD, [583, 29, 206, 179])),
        ("the middle one of three copies differs", read(THREE_FOLD, [583, 157, 78, 179])),
        ("the highest of three copies differs", read(THREE_FOLD, [583, 157, 206, 163])),
    ]
}

/// 18, 21, 22, 10, 19, 20, 23: later faults are left in.
fn placed() -> Vec<Shown> {
    let sheet = pitch(&format!("1,2,0,1-12\n1,4,0,7-12\n0\n{SECTION}"));
    let place = |frame: &[u16], parameter: u32, sample: u32, value: u64| {
        let table = table(&sheet);
        Case::Place { table, frame: frame.to_vec(), parameter, sample, value }
    };
    let frame = [583, 5, 0, 6];
    let section = Case::Place {
        table: table(&pitch(SECTION)),
        frame: vec![583, 2048, 0, 1],
        parameter: 2,
        sample: 1,
        value: 0,
    };
    vec![
        ("10: the section's sample", section),
        ("10: a sample with overlap", place(&frame, 2, 2, 0)),
        ("10: before 19 and 23", place(&[583], 2, 2, 1 << 40)),
        ("10: before 20", place(&[583, 5, 4096, 6], 2, 2, 0)),
        ("21: no parameter 3", place(&[583], 3, 2, 0)),
        ("22: no sample 3", place(&[583], 2, 3, 0)),
        ("the parameter's sample without overlap", place(&frame, 2, 1, 5)),
        ("another parameter of the table", place(&frame, 1, 1, 584)),
    ]
}

/// 583 is 71 in the low 8 bits and 9 from bit 7 on.
fn identifiers() -> Vec<Shown> {
    let compare = |frame: [u16; 4]| Case::Compare { table: table(&sync("583")), frame: frame.to_vec() };
    vec![
        ("an identifier with overlap", compare([71, 5, 9, 6])),
        ("24: its raw value, and a copy that differs", compare([7, 5, 9, 6])),
        ("24: copies agree on another value", compare([135, 5, 10, 6])),
        ("an identifier of 12 bits joined, 4,095", make(sync("4095"), 148)),
        ("16: of 12 bits joined, 4,096", make(sync("4096"), 148)),
    ]
}

fn cards() -> Vec<Shown> {
    let words = |frame: [u64; 4]| frame.map(|word| (word, 12));
    let near = packed(&[&[(1, 3)], &words([7, 5, 9, 6])[..], &words([71, 5, 9, 6])[..]].concat());
    vec![
        ("a copy differs in the first frame", card(table(&sync("583")), &near, 4)),
        ("25: only a frame in which a copy differs", card(table(&sync("583")), &near[..10], 4)),
        ("the wall's frame by form 2", card(table_of(2, &wall_with("0,0")), &near_wall(), 4)),
    ]
}

fn near_wall() -> Vec<u8> {
    packed(&[(0, 3), (583, 12), (5, 12), (0, 12), (6, 12)])
}

#[cfg(test)]
mod tests {
    use super::*;

    fn line(shown: &str) -> String {
        let found: Vec<String> =
            cases().iter().filter(|(what, _)| *what == shown).map(|(_, case)| case.line()).collect();
        assert_eq!(found.len(), 1, "{shown}");
        found[0].clone()
    }

    #[test]
    fn reference_lines() {
        let wall = Case::Make { sheet: WALL.as_bytes().to_vec(), lent: 140 };
        assert_eq!(wall.line(), "1 0 140 1458311050");
        let frame = vec![583, 5, 0, 6];
        let pitch = Case::Read { table: table(WALL), frame, parameter: 2, sample: 1 };
        assert_eq!(pitch.line(), "3 0 1 6 53 -11");
        assert_eq!(line("copies agree"), "3 0 1 18 2048 2048");
        assert_eq!(line("copies differ, the higher one set"), "3 0 2 18 2048 2048");
        assert!(line("10: the section's sample").starts_with("4 10 "));
    }

    #[test]
    fn joined_by_hand() {
        assert_eq!(line("copies differ, the lower one set"), "3 0 2 18 0 0");
        assert_eq!(line("copies agree, minus 1"), "3 0 1 18 262143 -1");
        assert_eq!(line("copies differ, minus 1"), "3 0 2 18 262143 -1");
        assert_eq!(line("three copies agree"), "3 0 1 11 1437 -611");
        assert_eq!(line("the lowest of three copies differs"), "3 0 2 11 1437 -611");
        assert_eq!(line("the middle one of three copies differs"), "3 0 2 11 1437 -611");
        assert_eq!(line("the highest of three copies differs"), "3 0 2 11 1309 -739");
    }

    #[test]
    fn lines_of_14() {
        for (shown, at) in [
            ("14: an overlap of all its own bits", 17),
            ("14: an overlap of 999999", 17),
            ("14: an overlap above the next one's bits", 18),
            ("14: an overlap of the last component", 19),
            ("14: an overlap of the only component", 18),
            ("14: 33 bits joined so far, 31 with the next", 19),
            ("14: copies in the same bits of the frame", 18),
            ("14: a second sample of 18 bits that joins to 17", 22),
        ] {
            assert!(line(shown).starts_with(&format!("1 14 {at} ")), "{shown}");
        }
    }

    #[test]
    fn found_where_no_copy_differs() {
        assert!(line("a copy differs in the first frame").starts_with("8 0 51 4 "));
    }
}
