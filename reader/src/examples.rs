//! The examples that the scope paper prints, as tests.
#![cfg(test)]

use crate::{
    checking, comparing, contents::Refusal, judging, listing, making, naming, placing, reading, seconds,
};

const WALL: &str = "HEADER:
2.0,A,TypeX,,,001,,,True,,,1,,
RECORD:
12,4,,,1.0
PARAMETER:
Sync,,,True,,,
1,1,0,1-12
0

False,,,,
583,,,
,,


PARAMETER:
Pitch,PCH,,False,,,
1,2,0,1-4
1,4,0,2-3
0.5

True,,,deg,
,,,
,,


";

const FRAME: [u16; 4] = [583, 5, 0, 6];

fn wall_table() -> Vec<u8> {
    let mut lent = vec![165; 200];
    let length = making::make(WALL.as_bytes(), &mut lent).expect("accepted");
    assert!(lent[length..].iter().all(|&byte| byte == 165));
    lent.truncate(length);
    lent
}

fn refusal(sheet: &str) -> Refusal {
    judging::judge(sheet.as_bytes()).expect_err("refused")
}

#[test]
fn wall_sheet_has_25_lines_and_140_bytes() {
    assert_eq!(WALL.lines().count(), 25);
    let table = wall_table();
    assert_eq!(table.len(), 140);
    let offsets: Vec<u32> =
        table[16..36].chunks(4).map(|c| u32::from_le_bytes(c.try_into().unwrap())).collect();
    assert_eq!(offsets, [36, 56, 88, 104, 128]);
    assert_eq!(&table[128..], b"SyncPitchPCH");
    assert_eq!((&table[14..16], &table[40..44]), (&[3, 0][..], &[255; 4][..]));
    assert!(checking::check(&table).is_some());
}

#[test]
fn wall_frame_reads_583_and_minus_11() {
    let table = wall_table();
    let sync = reading::read(&table, &FRAME, 1, 1).unwrap();
    assert_eq!((sync.width, sync.raw, sync.value), (12, 583, 583));
    let pitch = reading::read(&table, &FRAME, 2, 1).unwrap();
    assert_eq!((pitch.width, pitch.raw, pitch.value), (6, 53, -11));
    assert_eq!(comparing::compare(&table, &FRAME), Ok(()));
}

#[test]
fn wall_listing() {
    let frame: Vec<u8> = FRAME.iter().flat_map(|word| word.to_le_bytes()).collect();
    let text = listing::listing(WALL.as_bytes(), &frame);
    assert_eq!(text, b"name,sample,width,raw,value\nSync,1,12,583,583\nPitch,1,6,53,-11\n");
    assert_eq!(listing::listing(b"", &frame), b"refused 4 1\n");
    assert_eq!(listing::listing(WALL.as_bytes(), &frame[..7]), b"refused 19 0\n");
}

#[test]
fn empty_file_is_4_at_1() {
    assert_eq!(refusal(""), Refusal { number: 4, line: 1 });
}

#[test]
fn signs_at_both_ends_of_a_width() {
    let table = wall_table();
    let read = |raw: u64| {
        let mut frame = FRAME;
        placing::place(&table, &mut frame, 2, 1, raw).unwrap();
        reading::read(&table, &frame, 2, 1).unwrap().value
    };
    assert_eq!((read(31), read(32)), (31, -32));
    let narrow = WALL.replace("1,2,0,1-4\n1,4,0,2-3\n", "1,2,0,3\n");
    assert_eq!(signed_value_of_ones(&narrow), -1);
    let wide = WALL.replace("1,2,0,1-4\n1,4,0,2-3\n", "1,2,0,1-12\n1,3,0,1-12\n1,4,0,1-8\n");
    assert_eq!(signed_value_of_ones(&wide), -1);
}

fn signed_value_of_ones(sheet: &str) -> i64 {
    let mut lent = vec![0; 300];
    let length = making::make(sheet.as_bytes(), &mut lent).unwrap();
    reading::read(&lent[..length], &[583, 4095, 4095, 4095], 2, 1).unwrap().value
}

#[test]
fn bits_of_a_component() {
    let with = |bits: &str| WALL.replace("1,2,0,1-4", &format!("1,2,0,{bits}"));
    assert!(judging::judge(with("12").as_bytes()).is_ok());
    assert_eq!(refusal(&with("13")), Refusal { number: 13, line: 17 });
    assert_eq!(refusal(&with("0")), Refusal { number: 11, line: 17 });
    assert_eq!(refusal(&with("4-1")), Refusal { number: 11, line: 17 });
}

#[test]
fn highest_word_and_one_above() {
    let table = wall_table();
    let read = |word| reading::read(&table, &[583, 5, word, 6], 2, 1);
    assert_eq!(read(4095).unwrap().value, -11);
    assert_eq!(read(4096), Err(20));
}

#[test]
fn placing_63_and_64() {
    let table = wall_table();
    let mut frame = FRAME;
    assert_eq!(placing::place(&table, &mut frame, 2, 1, 64), Err(23));
    assert_eq!(frame, FRAME);
    assert_eq!(placing::place(&table, &mut frame, 2, 1, 63), Ok(()));
    assert_eq!(frame, [583, 15, 0, 6]);
}

#[test]
fn seconds() {
    assert_eq!(seconds::seconds(b"2 1/6"), Ok((13, 6)));
    assert_eq!(seconds::seconds(b"0.25"), Ok((1, 4)));
    assert_eq!(seconds::seconds(b"1/0"), Err(11));
    assert_eq!(seconds::seconds(b"1.0"), Ok((1, 1)));
}

#[test]
fn names() {
    let table = wall_table();
    let part = naming::by_mnemonic(&table, b"PCH").unwrap();
    assert_eq!((part.start, part.length), (132, 5));
    assert_eq!(naming::by_mnemonic(&table, b""), Err(21));
    assert_eq!(naming::by_number(&table, 1).unwrap().start, 128);
    assert_eq!(naming::by_number(&table, 3), Err(21));
}
