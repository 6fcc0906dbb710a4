//! Case files packed into folders, each with the answers expected.

use std::fs;
use std::io;
use std::path::{Path, PathBuf};

use crate::batch::Batch;
use crate::card_listings::CardListing;
use crate::listings::Listing;
use crate::page_cases;
use crate::random::Random;

const FILE_LIMIT: usize = 500_000;

/// Room kept for bytes after the last whole case.
const ENDING_LIMIT: usize = 1_000;

/// Cases that go into one case file.
pub struct Packed {
    /// The index of the first case within the batch.
    pub first: usize,
    pub count: usize,
    pub bytes: Vec<u8>,
    /// Whether bytes that are no whole case follow.
    pub ends_early: bool,
}

pub fn pack(batch: &Batch) -> Vec<Packed> {
    let mut random = Random::seeded(batch.seed ^ 0x5EED);
    let mut all: Vec<Packed> = Vec::new();
    for (index, case) in batch.cases.iter().enumerate() {
        let bytes = case.bytes();
        let fits = all.last().is_some_and(|last| last.bytes.len() + bytes.len() <= FILE_LIMIT - ENDING_LIMIT);
        if !fits {
            all.push(Packed { first: index, count: 0, bytes: vec![], ends_early: false });
        }
        let last = all.len() - 1;
        all[last].bytes.extend(bytes);
        all[last].count += 1;
    }
    for packed in &mut all {
        add_ending(&mut random, packed, batch);
    }
    all
}

/// In most files a case that is cut off, beyond a limit or of another kind
/// follows.
fn add_ending(random: &mut Random, packed: &mut Packed, batch: &Batch) {
    let ending = match random.below(7) {
        0 | 1 => return,
        2 => vec![*random.pick(&[0, 11, 12, 49, 255])],
        3 => [vec![0], batch.cases[packed.first].bytes()].concat(),
        4 => vec![*random.pick(&[1, 2, 3, 4, 5, 6, 7, 8, 9, 10]), 255, 255, 255, 255, 1],
        5 => page_cases::beyond_the_limit().bytes(),
        _ => {
            let case = random.pick(&batch.cases).bytes();
            let length = random.between(1, case.len() - 1);
            case[..length].to_vec()
        }
    };
    if ending.len() <= ENDING_LIMIT {
        packed.bytes.extend(ending);
        packed.ends_early = true;
    }
}

/// The lines of this case file, by the lines of the whole batch.
pub fn expected_lines<'l>(packed: &Packed, lines: &'l [String]) -> Vec<&'l str> {
    let mut expected: Vec<&str> =
        lines[packed.first..packed.first + packed.count].iter().map(String::as_str).collect();
    if packed.ends_early {
        expected.push("end of cases");
    }
    expected
}

pub fn write_packed(parent: &Path, number: usize, packed: &Packed, lines: &[String]) -> io::Result<PathBuf> {
    let folder = parent.join(format!("{number:03}"));
    fs::create_dir_all(&folder)?;
    fs::write(folder.join("cases.bin"), &packed.bytes)?;
    let mut expected = expected_lines(packed, lines).join("\n");
    expected.push('\n');
    fs::write(folder.join("expected"), expected)?;
    Ok(folder)
}

pub fn write_listing(parent: &Path, number: usize, listing: &Listing) -> io::Result<PathBuf> {
    let folder = parent.join(format!("l{number:03}"));
    let files = [("sheet.frcs", &listing.sheet), ("frame.bin", &listing.frame)];
    write_files(folder, files, &listing.expected())
}

pub fn write_card_listing(parent: &Path, number: usize, listing: &CardListing) -> io::Result<PathBuf> {
    let folder = parent.join(format!("c{number:03}"));
    let files = [("sheet.frcs", &listing.sheet), ("card.bin", &listing.stream)];
    write_files(folder, files, &listing.expected())
}

fn write_files(
    folder: PathBuf,
    files: [(&str, &Option<Vec<u8>>); 2],
    expected: &[u8],
) -> io::Result<PathBuf> {
    fs::create_dir_all(&folder)?;
    for (name, file) in files {
        let path = folder.join(name);
        match file {
            Some(bytes) => fs::write(path, bytes)?,
            None if path.exists() => fs::remove_file(path)?,
            None => {}
        }
    }
    fs::write(folder.join("expected"), expected)?;
    Ok(folder)
}
