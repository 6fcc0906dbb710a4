//! Answers to a whole case file, as the trial program must write them.

use crate::cases::Case;
use crate::paging::Request;

/// The most results lent for a page.
const MOST_RESULTS: usize = 2_000;

/// A line a case; one more where the file does not end after a whole case.
pub fn answers(file: &[u8]) -> Vec<String> {
    let mut rest = Rest { bytes: file };
    let mut lines = Vec::new();
    while !rest.bytes.is_empty() {
        match rest.case() {
            Some(case) => lines.push(case.line()),
            None => {
                lines.push("end of cases".to_string());
                break;
            }
        }
    }
    lines
}

/// What of the file is not taken yet. Each part is none where it is cut off.
struct Rest<'f> {
    bytes: &'f [u8],
}

impl Rest<'_> {
    fn take(&mut self, count: usize) -> Option<&[u8]> {
        let (taken, rest) = self.bytes.split_at_checked(count)?;
        self.bytes = rest;
        Some(taken)
    }

    fn u32(&mut self) -> Option<u32> {
        let taken = self.take(4)?;
        Some(u32::from_le_bytes(taken.try_into().ok()?))
    }

    fn u64(&mut self) -> Option<u64> {
        let taken = self.take(8)?;
        Some(u64::from_le_bytes(taken.try_into().ok()?))
    }

    fn count(&mut self) -> Option<usize> {
        Some(self.u32()? as usize)
    }

    fn bytes(&mut self) -> Option<Vec<u8>> {
        let count = self.count()?;
        Some(self.take(count)?.to_vec())
    }

    fn words(&mut self) -> Option<Vec<u16>> {
        let count = self.count()?;
        let taken = self.take(2 * count)?;
        Some(taken.chunks(2).map(|pair| u16::from_le_bytes([pair[0], pair[1]])).collect())
    }

    fn requests(&mut self) -> Option<Vec<Request>> {
        let count = self.count()?;
        let taken = self.take(8 * count)?.chunks(4);
        let numbers: Vec<u32> =
            taken.filter_map(|four| four.try_into().ok().map(u32::from_le_bytes)).collect();
        Some(numbers.chunks(2).map(|pair| Request { parameter: pair[0], sample: pair[1] }).collect())
    }

    fn page(&mut self, table: Vec<u8>) -> Option<Case> {
        let (frame, requests, lent) = (self.words()?, self.requests()?, self.count()?);
        (lent <= MOST_RESULTS).then_some(Case::Page { table, frame, requests, lent })
    }

    /// None for another kind too.
    fn case(&mut self) -> Option<Case> {
        let kind = self.take(1)?[0];
        if kind == 1 {
            return Some(Case::Make { sheet: self.bytes()?, lent: self.count()? });
        }
        if !(2..=10).contains(&kind) {
            return None;
        }
        let table = self.bytes()?;
        Some(match kind {
            2 => Case::Check { table },
            3 => Case::Read { table, frame: self.words()?, parameter: self.u32()?, sample: self.u32()? },
            4 => {
                let (frame, parameter, sample) = (self.words()?, self.u32()?, self.u32()?);
                Case::Place { table, frame, parameter, sample, value: self.u64()? }
            }
            5 => Case::Compare { table, frame: self.words()? },
            6 => Case::Name { table, parameter: self.u32()? },
            7 => Case::Mnemonic { table, mnemonic: self.bytes()? },
            8 => Case::Card { table, stream: self.bytes()?, lent: self.count()? },
            9 => self.page(table)?,
            _ => Case::CardFrom { table, stream: self.bytes()?, from: self.u32()?, lent: self.count()? },
        })
    }
}

#[cfg(test)]
mod tests {
    use super::*;
    use crate::batch;
    use crate::folders;

    #[test]
    fn case_files_hold_the_batch() {
        let batch = batch::batch(3, 1000);
        let lines: Vec<String> = batch.cases.iter().map(|case| case.line()).collect();
        for packed in folders::pack(&batch) {
            assert_eq!(answers(&packed.bytes), folders::expected_lines(&packed, &lines));
        }
    }

    #[test]
    fn pages_cut_off_and_beyond_their_limit() {
        let requests = vec![Request { parameter: 1, sample: 2 }; 2];
        let page = |lent| Case::Page { table: vec![9], frame: vec![5], requests: requests.clone(), lent };
        let bytes = page(2_000).bytes();
        assert!(answers(&bytes)[0].starts_with("9 0 2 "));
        for length in 1..bytes.len() {
            assert_eq!(answers(&bytes[..length]), ["end of cases"]);
        }
        assert_eq!(answers(&page(2_001).bytes()), ["end of cases"]);
    }

    #[test]
    fn the_stored_case_file_has_the_stored_answers() {
        let file = include_bytes!("../../crates/trial/data/cases.bin");
        let stored: Vec<&str> = include_str!("../../crates/trial/stdout").lines().collect();
        assert_eq!(answers(file), stored);
    }
}
