//! Cases for the listing program: the two files, each of which may be missing.

use std::panic;

use crate::contents::Contents;
use crate::draft;
use crate::frames;
use crate::judging;
use crate::large;
use crate::lawful;
use crate::listing;
use crate::random::Random;
use crate::sheets;
use crate::wrong;

#[derive(Clone, Debug)]
pub struct Listing {
    pub sheet: Option<Vec<u8>>,
    pub frame: Option<Vec<u8>>,
}

impl Listing {
    /// The text expected, by the reading switched on, which may fail
    /// altogether where it is a wrong one.
    pub fn expected(&self) -> Vec<u8> {
        if wrong::any_wrong() {
            return panic::catch_unwind(|| self.plain_text()).unwrap_or(b"failed\n".to_vec());
        }
        self.plain_text()
    }

    fn plain_text(&self) -> Vec<u8> {
        let bytes = |file: &Option<Vec<u8>>| file.clone().unwrap_or_default();
        listing::listing(&bytes(&self.sheet), &bytes(&self.frame))
    }
}

pub const WALL: &str =
    "HEADER:\n2.0,A,TypeX,,,001,,,True,,,1,,\nRECORD:\n12,4,,,1.0\nPARAMETER:\nSync,,,True,,,\n\
1,1,0,1-12\n0\n\nFalse,,,,\n583,,,\n,,\n\n\nPARAMETER:\nPitch,PCH,,False,,,\n1,2,0,1-4\n1,4,0,2-3\n0.5\n\n\
True,,,deg,\n,,,\n,,\n\n\n";

/// The wall sheet with its two margins as given.
pub fn wall_with(margins: &str) -> String {
    WALL.replace("12,4,,,1.0", &format!("12,4,{margins},1.0"))
}

/// The first ones are fixed, the others drawn.
pub fn one(random: &mut Random, index: usize) -> Listing {
    let wall = || Some(WALL.as_bytes().to_vec());
    let frame = |words: &[u16]| Some(file_of(words));
    match index {
        0 => Listing { sheet: wall(), frame: frame(&[583, 5, 0, 6]) },
        1 => Listing { sheet: None, frame: frame(&[583, 5, 0, 6]) },
        2 => Listing { sheet: wall(), frame: None },
        3 => Listing { sheet: None, frame: None },
        4 => Listing { sheet: wall(), frame: frame(&[584, 5, 0, 6]) },
        5 => table_above_65536(random),
        6 => longest_frame(0),
        7 => longest_frame(2),
        8 => longest_frame(1),
        9 => sheet_of_size(random, 65_536, 0),
        10 => sheet_of_size(random, 65_536, 1),
        11 => without_parameters(random, false),
        12 => without_parameters(random, true),
        _ => drawn(random),
    }
}

fn file_of(words: &[u16]) -> Vec<u8> {
    words.iter().flat_map(|word| word.to_le_bytes()).collect()
}

fn table_above_65536(random: &mut Random) -> Listing {
    let contents = large::table_above_65536(random);
    let frame = frames::fitting(random, &contents);
    Listing { sheet: Some(large::plain_sheet(&contents)), frame: Some(file_of(&frame)) }
}

/// The longest frame that a sheet can have, and some bytes more.
fn longest_frame(more: usize) -> Listing {
    let sheet = b"HEADER:\n2.0,,x,,,x,,,True,,,32,,\nRECORD:\n16,1024,,,1\nNONE\n".to_vec();
    Listing { sheet: Some(sheet), frame: Some(vec![7; 32 * 1024 * 2 + more]) }
}

fn sheet_of_size(random: &mut Random, size: usize, more: usize) -> Listing {
    let mut sheet = large::sheet_of_size(random, size);
    let words = judging::judge(&sheet).map_or(0, |contents| contents.frame_words());
    sheet.extend(vec![b'x'; more]);
    Listing { sheet: Some(sheet), frame: Some(file_of(&vec![1; words])) }
}

fn without_parameters(random: &mut Random, missing: bool) -> Listing {
    let contents = lawful::frame_only(random);
    let sheet = draft::spell(random, &contents).bytes(random);
    let frame = frames::fitting(random, &contents);
    Listing { sheet: Some(sheet), frame: (!missing).then(|| file_of(&frame)) }
}

fn drawn(random: &mut Random) -> Listing {
    if random.percent(25) {
        return refused_sheet(random);
    }
    let contents = lawful::contents(random);
    let sheet = draft::spell(random, &contents).bytes(random);
    Listing { sheet: Some(sheet), frame: frame(random, &contents) }
}

fn refused_sheet(random: &mut Random) -> Listing {
    let number = random.between(2, 16) as u8;
    let sheet = sheets::refused_by(random, number);
    let words = vec![0; random.between(0, 9)];
    Listing { sheet: Some(sheet), frame: Some(words) }
}

fn frame(random: &mut Random, contents: &Contents) -> Option<Vec<u8>> {
    let mut file = match random.below(10) {
        0 | 1 => file_of(&frames::spoiled(random, contents)),
        2 => file_of(&frames::differing(random, contents)),
        _ => file_of(&frames::fitting(random, contents)),
    };
    match random.below(20) {
        0 => return None,
        1 => file.push(0),
        2 => drop(file.pop()),
        _ => {}
    }
    Some(file)
}
