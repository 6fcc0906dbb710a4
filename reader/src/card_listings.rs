//! Cases for the program `cards`: the two files, each of which may be missing.

use std::panic;

use crate::card_listing;
use crate::contents::Contents;
use crate::draft;
use crate::large;
use crate::lawful;
use crate::listings::{self, WALL};
use crate::random::Random;
use crate::sheets;
use crate::streams;
use crate::wrong;

#[derive(Clone, Debug)]
pub struct CardListing {
    pub sheet: Option<Vec<u8>>,
    pub stream: Option<Vec<u8>>,
}

impl CardListing {
    /// The text expected, by the reading switched on, which may fail
    /// altogether where it is a wrong one.
    pub fn expected(&self) -> Vec<u8> {
        if wrong::any_wrong() {
            return panic::catch_unwind(|| self.plain_text()).unwrap_or(b"failed\n".to_vec());
        }
        self.plain_text()
    }

    fn plain_text(&self) -> Vec<u8> {
        let bytes = |file: &Option<Vec<u8>>| file.clone().unwrap_or_default();
        card_listing::listing(&bytes(&self.sheet), &bytes(&self.stream))
    }
}

const NONE: &[u8] = b"HEADER:\n2.0,A,TypeX,,,001,,,True,,,1,,\nRECORD:\n12,4,3,1,1.0\nNONE\n";

const BLANK_NONE: &[u8] = b"HEADER:\n2.0,A,TypeX,,,001,,,True,,,1,,\nRECORD:\n12,4,,,1.0\nNONE\n";

/// The shortest frame, so that a card has many.
const ONE_BIT: &[u8] =
    b"HEADER:\n2.0,,A,,,1,,,True,,,1,,\nRECORD:\n1,1,0,0,1\nPARAMETER:\nSync,,,True,,,\n1,1,0,1\n\
0\n\nFalse,,,,\n1,,,\n,,\n\n\n";

/// The first ones are fixed, the others drawn.
pub fn one(random: &mut Random, index: usize) -> CardListing {
    let wall_with = |margins: &str| Some(listings::wall_with(margins).into_bytes());
    let wall = || wall_with("3,1");
    let stream = || Some(vec![0xa0, 0x23, 0x29, 0, 0, 0x30, 0x80]);
    let zeros = |count| Some(vec![0; count]);
    match index {
        0 => CardListing { sheet: wall(), stream: stream() },
        1 => CardListing { sheet: None, stream: stream() },
        2 => CardListing { sheet: wall(), stream: None },
        3 => CardListing { sheet: None, stream: None },
        4 => CardListing { sheet: Some(NONE.to_vec()), stream: stream() },
        5 => CardListing { sheet: Some(NONE.to_vec()), stream: zeros(65_537) },
        6 => CardListing { sheet: wall(), stream: zeros(65_537) },
        7 => CardListing {
            sheet: wall(),
            stream: Some([vec![0; 65_529], stream().unwrap_or_default()].concat()),
        },
        8 => CardListing { sheet: wall(), stream: zeros(65_536) },
        9 => CardListing {
            sheet: Some(large::plain_sheet(&large::table_above_65536(random))),
            stream: zeros(9),
        },
        10 => longest_frame(random),
        11 => CardListing { sheet: Some(b"HEADER:\n".to_vec()), stream: zeros(65_537) },
        12 => CardListing { sheet: Some(ONE_BIT.to_vec()), stream: Some(vec![165; 2000]) },
        13 => CardListing { sheet: Some(WALL.as_bytes().to_vec()), stream: stream() },
        14 => CardListing { sheet: wall_with("3,"), stream: stream() },
        15 => CardListing { sheet: wall_with(",1"), stream: zeros(65_537) },
        16 => CardListing { sheet: Some(BLANK_NONE.to_vec()), stream: stream() },
        _ => drawn(random),
    }
}

/// A frame as long as the longest stream.
fn longest_frame(random: &mut Random) -> CardListing {
    let contents = large::of_words(random);
    let mut stream = streams::Stream::new(random);
    stream.put_agreeing(random, &contents);
    CardListing { sheet: Some(large::plain_sheet(&contents)), stream: Some(stream.bytes()) }
}

fn drawn(random: &mut Random) -> CardListing {
    match random.below(12) {
        0 => refused_sheet(random),
        1 => {
            let contents = lawful::frame_only(random);
            listing_of(random, &contents)
        }
        2 => {
            let contents = streams::of_unknown_margins(random);
            listing_of(random, &contents)
        }
        _ => {
            let contents = streams::contents(random);
            listing_of(random, &contents)
        }
    }
}

fn listing_of(random: &mut Random, contents: &Contents) -> CardListing {
    let sheet = draft::spell(random, contents).bytes(random);
    let stream = match random.below(3) {
        0 => streams::drawn(random, contents),
        _ => streams::several_frames(random, contents),
    };
    CardListing { sheet: Some(sheet), stream: Some(stream.bytes()) }
}

fn refused_sheet(random: &mut Random) -> CardListing {
    let number = random.between(2, 16) as u8;
    let sheet = sheets::refused_by(random, number);
    let stream = vec![0; random.between(0, 9)];
    CardListing { sheet: Some(sheet), stream: Some(stream) }
}
