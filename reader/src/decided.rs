//! Decided readings of the scope paper, as tests on the wall sheet.
#![cfg(test)]

use crate::contents::Refusal;
use crate::draft;
use crate::judging::judge;
use crate::large;
use crate::lawful;
use crate::listings::{wall_with, WALL};
use crate::making;
use crate::random::Random;
use crate::{checking, comparing, naming, placing, reading};

/// The number and line that refuse the sheet; 0 and 0 where it is accepted.
fn verdict(sheet: impl AsRef<[u8]>) -> (u8, u32) {
    match judge(sheet.as_ref()) {
        Ok(_) => (0, 0),
        Err(Refusal { number, line }) => (number, line),
    }
}

/// The wall sheet with one piece of text replaced.
fn with(old: &str, new: &str) -> String {
    assert!(WALL.contains(old), "{old} stands in the sheet");
    WALL.replacen(old, new, 1)
}

const NONE: &str = "HEADER:\n2.0,A,TypeX,,,001,,,True,,,3,,\nRECORD:\n12,4,,,1.0\nNONE\n";

#[test]
fn whole_sheet_and_lines() {
    assert_eq!(verdict("HEADER:\n"), (4, 2));
    assert_eq!(verdict([200; 2000]), (4, 1));
    assert_eq!(verdict(NONE), (0, 0));
    assert_eq!(verdict(format!("{NONE}x")), (4, 6));
    assert_eq!(verdict(format!("{NONE}x\n")), (5, 6));
    assert_eq!(verdict(format!("{NONE}\n")), (5, 6));
    assert_eq!(verdict([NONE.as_bytes(), b"\xc8\n"].concat()), (2, 6));
    assert_eq!(verdict(format!("{NONE}{}\n", "x".repeat(1025))), (3, 6));
    assert_eq!(verdict(WALL.replace('\n', "\r\n")), (2, 1));
    assert_eq!(verdict(with("HEADER:", " HEADER:\t")), (0, 0));
    assert_eq!(verdict(format!("{WALL}\n")), (5, 26));
    assert_eq!(verdict(WALL.strip_suffix('\n').unwrap_or("")), (4, 25));
    assert_eq!(verdict(with("0.5\n\n", &format!("0.5\n{}\n", " ".repeat(1024)))), (0, 0));
    assert_eq!(verdict(with("0.5\n\n", &format!("0.5\n{}\n", " ".repeat(1025)))), (3, 20));
    for keyword in ["Header:", "HEADER:,", "HEADER :", "HEADER"] {
        assert_eq!(verdict(with("HEADER:", keyword)), (5, 1));
    }
}

#[test]
fn lines_that_are_not_due() {
    assert_eq!(verdict(with("0.5\n", "PARAMETER:\n")), (6, 19));
    assert_eq!(verdict(with("0.5\n", "\n")), (5, 19));
    assert_eq!(verdict(with("0.5\n\n", "0.5\nCounter,1 2\n")), (10, 20));
    assert_eq!(verdict(with("0.5\n\n", "0.5\n,\n")), (10, 20));
    assert_eq!(verdict(with("0.5\n", "a,b\n")), (5, 19));
    assert_eq!(verdict(with("Pitch,PCH,,False,,,\n", "Pitch,PCH,,False,,,\na,b\n")), (5, 17));
    assert_eq!(verdict(with("RECORD:\n12,4,,,1.0\n", "RECORD:\n12,4,,,1.0\nRECORD:\n12,4,,,1.0\n")), (5, 5));
    let two_pairs = NONE.replace("NONE", "RECORD:\n12,4,,,1.0\nNONE");
    assert_eq!(verdict(&two_pairs), (5, 7));
    assert_eq!(verdict(two_pairs.replace("NONE\n", "")), (4, 7));
}

#[test]
fn fields_left_to_right() {
    let component = |fields: &str| verdict(with("1,2,0,1-4", fields)).0;
    assert_eq!(component("1,x,0,0"), 6);
    assert_eq!(component("9,x,0,1"), 13);
    assert_eq!(component("1,1,x,0"), 6);
    assert_eq!(component("1,1,1,0"), 11);
    assert_eq!(component("1,2,,1-4"), 8);
    assert_eq!(component("1,2,000,1-4"), 0);
    assert_eq!(component("1,2,2,1-4"), 0);
    assert_eq!(component("1,2,3,1-4"), 14);
    assert_eq!(component("1,2,0000000,1-4"), 6);
    assert_eq!(component("1,2,999999,1-4"), 14);
    assert_eq!(component("40,2,0,1-4"), 13);
    assert_eq!(component("0,2,0,1-4"), 11);
    assert_eq!(component("1,5,0,1-4"), 13);
    for (bits, number) in
        [("13-1", 11), ("12-13", 13), ("5-0", 11), ("0-0", 11), ("1 - 4", 6), ("1-2-3", 6), ("4-4", 0)]
    {
        assert_eq!(component(&format!("1,2,0,{bits}")), number, "{bits}");
    }
}

#[test]
fn versions_and_texts() {
    let long = "2".repeat(201);
    for (version, number) in
        [("", 8), (" ", 8), (&long[..], 7), ("2.\t0", 6), ("\"2.0\"", 9), ("2", 9), ("02.0", 9), ("2.00", 9)]
    {
        assert_eq!(verdict(with("2.0,", &format!("{version},"))), (number, 2), "{version}");
    }
    assert_eq!(verdict(with("deg", &"d".repeat(200))), (0, 0));
    assert_eq!(verdict(with("deg", &"d".repeat(201))), (7, 21));
    assert_eq!(verdict(with("deg", &format!("d\t{}", "d".repeat(199)))), (7, 21));
    assert_eq!(verdict(with("PCH", &"P".repeat(64))), (0, 0));
    assert_eq!(verdict(with("PCH", &"P".repeat(65))), (7, 16));
    assert_eq!(verdict(with(",,,deg,", &format!(",{}\t,,deg,", "x".repeat(300)))), (10, 21));
}

#[test]
fn digits_and_limits() {
    for (words, number) in [("1025", 11), ("1000000", 6), ("999999", 11), ("000004", 0), ("+4", 6), ("-4", 6)]
    {
        assert_eq!(verdict(with("12,4,", &format!("12,{words},"))).0, number, "{words}");
    }
    for (value, number) in [("4294967296", 11), ("00000000583", 6), ("0000000583", 0), ("", 8)] {
        assert_eq!(verdict(with("583,", &format!("{value},"))).0, number, "{value}");
    }
    assert_eq!(verdict(with("583,", "4096,")), (16, 5));
    for (label, number) in [("", 8), ("8", 6), ("1777", 6), ("377o", 6), ("400", 11), ("377", 0), ("000", 0)]
    {
        let sheet = format!("{}\n,{label},32,\n\n\n", WALL.strip_suffix("\n\n\n").unwrap_or(""));
        assert_eq!(verdict(sheet).0, number, "{label}");
    }
    for (time, number) in [("1000", 6), ("999.999999", 0), (".5", 6), ("5.", 6), ("1.1234567", 6), ("5", 0)] {
        assert_eq!(verdict(with("0.5\n", &format!("{time}\n"))).0, number, "{time}");
    }
}

#[test]
fn seconds_spelled_and_bad() {
    let seconds = |spelling: &str| verdict(with("1.0", spelling)).0;
    for spelling in ["1/", "/2", "1 /2", "1  1/2", "1\t1/2", "1.0/2", "1 2", "1234567/2"] {
        assert_eq!(seconds(spelling), 6, "{spelling}");
    }
    for spelling in ["0", "0.0", "0/5", "1/0", "0/0", "1 0/3", "1 3/3", "1 5/3", "1 1/0"] {
        assert_eq!(seconds(spelling), 11, "{spelling}");
    }
    for spelling in ["7/3", "0 1/3", "2 1/6", "000001/000002", "999999 999998/999999"] {
        assert_eq!(seconds(spelling), 0, "{spelling}");
    }
}

#[test]
fn counts_at_their_limits() {
    let mut random = Random::seeded(5);
    let sheet = |contents| verdict(large::plain_sheet(&contents));
    assert_eq!(sheet(large::of_components(4096)), (0, 0));
    let refused = sheet(large::of_components(4097));
    assert_eq!(refused.0, 12);
    let contents = large::of_parameters(&mut random, 513);
    let text = large::plain_sheet(&contents);
    let (number, line) = verdict(&text);
    let at = String::from_utf8_lossy(&text).lines().nth(line as usize - 1).map(str::to_string);
    assert_eq!((number, at.as_deref()), (12, Some("PARAMETER:")));
    assert_eq!(verdict(large::plain_sheet(&large::of_parameters(&mut random, 512))), (0, 0));
    assert_eq!(verdict(large::plain_sheet(&large::of_samples(&mut random, 4096))), (0, 0));
    assert_eq!(verdict(large::plain_sheet(&large::of_samples(&mut random, 4097))).0, 12);
    assert_eq!(verdict(large::sheet_of_size(&mut random, 65_536)), (0, 0));
    assert_eq!(verdict(large::sheet_of_size(&mut random, 65_537)), (1, 0));
}

#[test]
fn a_table_may_exceed_its_sheet() {
    let contents = large::table_above_65536(&mut Random::seeded(6));
    let sheet = large::plain_sheet(&contents);
    assert!(sheet.len() <= 65_536);
    assert_eq!(judge(&sheet).map(|contents| making::table_bytes(&contents).len()), Ok(75_428));
}

#[test]
fn first_differing_subframe_is_the_lowest_number() {
    let parameter = |name: &str, subframe: u8, value: u8| {
        format!(
            "PARAMETER:\n{name},{name},,True,,,\n{subframe},1,0,1-8\n0\n\nFalse,,,,\n{value},,,\n,,\n\n\n"
        )
    };
    let head = "HEADER:\n2.0,,x,,,x,,,True,,,2,,\nRECORD:\n8,1,,,1\n";
    let sheet = format!("{head}{}{}", parameter("B", 2, 7), parameter("A", 1, 9));
    let mut lent = vec![0; 500];
    let length = making::make(sheet.as_bytes(), &mut lent).unwrap_or(0);
    let table = &lent[..length];
    let refused = |frame: &[u16]| comparing::compare(table, frame).map_err(|r| (r.number, r.subframe));
    assert_eq!(refused(&[9, 7]), Ok(()));
    assert_eq!(refused(&[0, 0]), Err((24, 1)));
    assert_eq!(refused(&[9, 0]), Err((24, 2)));
    assert_eq!(refused(&[256, 0]), Err((20, 0)));
    assert_eq!(refused(&[9]), Err((19, 0)));
    assert_eq!(reading::read(table, &[9], 3, 1), Err(21));
    assert_eq!(reading::read(table, &[9], 1, 2), Err(22));
    assert_eq!(placing::place(table, &mut [9, 7], 1, 1, 256), Err(23));
    assert_eq!(naming::by_mnemonic(table, b"b"), Err(21));
    assert_eq!(checking::check(&lent).map(|_| ()), None);
}

#[test]
fn margins_known_and_unknown() {
    let margins = |sheet: &str| {
        judge(sheet.as_bytes())
            .map(|contents| (contents.subframes[0].leading, contents.subframes[0].trailing))
    };
    assert_eq!(margins(WALL), Ok((None, None)));
    assert_eq!(margins(&wall_with("0, ")), Ok((Some(0), None)));
    assert_eq!(margins(&wall_with("\t,4095")), Ok((None, Some(4095))));
    for written in ["4096,", ",4096", "65535,", ",65535"] {
        assert_eq!(verdict(wall_with(written)), (11, 4), "{written}");
    }
}

#[test]
fn tables_of_each_form() {
    let accepted = |form: u16, leading: u16, trailing: u16| {
        let laid_out = if form == 1 || form == 2 { form.into() } else { 3 };
        let table = judge(WALL.as_bytes()).map(|contents| making::table_of_form(laid_out, &contents));
        let mut table = table.unwrap_or_default();
        table[14..16].copy_from_slice(&form.to_le_bytes());
        table[40..42].copy_from_slice(&leading.to_le_bytes());
        table[42..44].copy_from_slice(&trailing.to_le_bytes());
        checking::check(&table).is_some()
    };
    for form in [1, 2, 3] {
        for margin in [0, 4095, 4096, 65_534, 65_535] {
            let due = margin <= 4095 || (margin == 65_535 && form != 1);
            let each = [accepted(form, margin, 0), accepted(form, 0, margin)];
            assert_eq!(each, [due; 2], "{form} {margin}");
        }
    }
    for form in [0, 4, 257, 258, 259, 65_535] {
        assert!(!accepted(form, 0, 0), "{form}");
    }
}

/// Every lawful content is its sheet's and its newest table's; an older
/// table's where it has no overlap, and in form 1 no unknown margin.
#[test]
fn lawful_sheets_say_what_they_were_made_from() {
    let mut random = Random::seeded(7);
    let mut overlapped = 0;
    for _ in 0..2000 {
        let mut contents = lawful::contents(&mut random);
        let sheet = draft::spell(&mut random, &contents).bytes(&mut random);
        assert_eq!(judge(&sheet).as_ref(), Ok(&contents));
        let checked = |table: &[u8]| checking::check(table).map(|table| table.contents);
        assert_eq!(checked(&making::table_bytes(&contents)).as_ref(), Some(&contents));
        if contents.has_overlap() {
            overlapped += 1;
            continue;
        }
        assert_eq!(checked(&making::table_of_form(2, &contents)).as_ref(), Some(&contents));
        let first = making::table_of_form(1, &contents);
        for subframe in &mut contents.subframes {
            subframe.leading = subframe.leading.or(Some(0));
            subframe.trailing = subframe.trailing.or(Some(0));
        }
        assert_eq!(checked(&first), Some(contents));
    }
    assert!(overlapped > 200);
}
