//! Runs the programs on a batch and compares line by line.

use std::env;
use std::fs;
use std::io;
use std::path::{Path, PathBuf};
use std::process::{self, Command};

use crate::batch::{self, Batch};
use crate::folders::{self, Packed};
use crate::tally::Tally;
use crate::wrong::{self, Wrong};

/// How many differences are printed and kept.
const SHOWN: usize = 10;

pub struct Commands {
    pub trial: Option<String>,
    pub listing: Option<String>,
    pub cards: Option<String>,
}

struct Comparison {
    folder: PathBuf,
    differences: usize,
}

/// Answers whether there was no difference.
pub fn run(seed: u64, count: usize, commands: &Commands, switch: Option<Wrong>) -> io::Result<bool> {
    let batch = batch::batch(seed, count);
    wrong::switch_on(switch);
    let lines: Vec<String> = batch.cases.iter().map(|case| case.line()).collect();
    let folder = env::temp_dir().join(format!("reader-{}-{seed}", process::id()));
    let mut comparison = Comparison { folder: folder.clone(), differences: 0 };
    println!("seed {seed}");
    if let Some(trial) = &commands.trial {
        for (number, packed) in folders::pack(&batch).iter().enumerate() {
            comparison.trial(trial, number, packed, &batch, &lines)?;
        }
    }
    if let Some(listing) = &commands.listing {
        comparison.listings(listing, &batch)?;
    }
    if let Some(cards) = &commands.cards {
        comparison.card_listings(cards, &batch)?;
    }
    let tally = tally_of(&batch, &lines);
    let [listings, cards] = [batch.listings.len(), batch.card_listings.len()];
    let cases = batch.cases.len() + listings + cards;
    println!("cases {}, listings {listings}, listings of cards {cards}", batch.cases.len());
    tally.print();
    if comparison.differences == 0 && folder.exists() {
        fs::remove_dir_all(&folder)?;
    }
    let least = tally.least();
    println!("tally: cases {cases} differences {} least-number-count {least}", comparison.differences);
    Ok(comparison.differences == 0)
}

pub fn tally_of(batch: &Batch, lines: &[String]) -> Tally {
    let mut tally = Tally::default();
    for (case, line) in batch.cases.iter().zip(lines) {
        tally.count_line(case.kind(), line);
    }
    for listing in &batch.listings {
        tally.count_listing(&listing.expected());
    }
    for listing in &batch.card_listings {
        tally.count_card_listing(&listing.expected());
    }
    tally
}

impl Comparison {
    fn trial(
        &mut self,
        command: &str,
        number: usize,
        packed: &Packed,
        batch: &Batch,
        lines: &[String],
    ) -> io::Result<()> {
        let folder = folders::write_packed(&self.folder, number, packed, lines)?;
        let output = String::from_utf8_lossy(&output_of(command, &folder)?).into_owned();
        let written: Vec<&str> = output.lines().collect();
        let expected = folders::expected_lines(packed, lines);
        for index in 0..written.len().max(expected.len()) {
            let (ours, theirs) = (expected.get(index), written.get(index));
            if ours != theirs {
                let case = batch.cases.get(packed.first + index).filter(|_| index < packed.count);
                let kept = match case {
                    Some(case) => self.keep(packed.first + index, &case.bytes())?,
                    None => folder.join("cases.bin"),
                };
                let kind = case.map_or(0, |case| case.kind());
                self.show(&format!("case {} kind {kind}", packed.first + index), ours, theirs, &kept);
            }
        }
        if !output.is_empty() && !output.ends_with('\n') {
            self.show("last line without its end", None, None, &folder);
        }
        Ok(())
    }

    fn listings(&mut self, command: &str, batch: &Batch) -> io::Result<()> {
        for (number, listing) in batch.listings.iter().enumerate() {
            let folder = folders::write_listing(&self.folder, number, listing)?;
            self.listing(command, &format!("listing {number}"), &folder, &listing.expected())?;
        }
        Ok(())
    }

    fn card_listings(&mut self, command: &str, batch: &Batch) -> io::Result<()> {
        for (number, listing) in batch.card_listings.iter().enumerate() {
            let folder = folders::write_card_listing(&self.folder, number, listing)?;
            self.listing(command, &format!("listing of card {number}"), &folder, &listing.expected())?;
        }
        Ok(())
    }

    fn listing(&mut self, command: &str, what: &str, folder: &Path, expected: &[u8]) -> io::Result<()> {
        let written = output_of(command, folder)?;
        if written != expected {
            let (ours, theirs) = (String::from_utf8_lossy(expected), String::from_utf8_lossy(&written));
            let (ours, theirs) = first_differing_lines(&ours, &theirs);
            self.show(what, ours.as_ref(), theirs.as_ref(), folder);
        }
        Ok(())
    }

    fn keep(&self, index: usize, bytes: &[u8]) -> io::Result<PathBuf> {
        let path = self.folder.join(format!("case-{index}")).join("cases.bin");
        if self.differences < SHOWN {
            fs::create_dir_all(path.parent().unwrap_or(&self.folder))?;
            fs::write(&path, bytes)?;
        }
        Ok(path)
    }

    fn show(&mut self, what: &str, ours: Option<&&str>, theirs: Option<&&str>, kept: &Path) {
        if self.differences < SHOWN {
            println!("difference: {what}");
            println!("  expected: {}", ours.unwrap_or(&"(no line)"));
            println!("  written:  {}", theirs.unwrap_or(&"(no line)"));
            println!("  kept in:  {}", kept.display());
        }
        self.differences += 1;
    }
}

fn first_differing_lines<'t>(ours: &'t str, theirs: &'t str) -> (Option<&'t str>, Option<&'t str>) {
    let (mut ours, mut theirs) = (ours.split_inclusive('\n'), theirs.split_inclusive('\n'));
    loop {
        let pair = (ours.next(), theirs.next());
        if pair.0 != pair.1 || pair.0.is_none() {
            return pair;
        }
    }
}

/// What the command writes with this folder as its current one.
fn output_of(command: &str, folder: &Path) -> io::Result<Vec<u8>> {
    let mut parts = command.split(' ').filter(|part| !part.is_empty());
    let program = parts.next().unwrap_or("");
    // A path given from here must still hold after the folder is changed.
    let program = fs::canonicalize(program).unwrap_or_else(|_| PathBuf::from(program));
    let output = Command::new(program).args(parts).current_dir(folder).output()?;
    if !output.status.success() {
        println!("note: {command} ended with {} in {}", output.status, folder.display());
    }
    Ok(output.stdout)
}
