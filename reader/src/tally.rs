//! How often each refusal number and each answered kind came.

use std::collections::BTreeMap;

use crate::cases::number_of;

/// The numbers that some call gives.
const NUMBERS: [usize; 30] = [
    1, 2, 3, 4, 5, 6, 7, 8, 9, 10, 11, 12, 13, 14, 15, 16, 17, 18, 19, 20, 21, 22, 23, 24, 25, 26, 27, 28,
    29, 38,
];

const KINDS: [(u8, &str); 10] = [
    (1, "make"),
    (2, "check"),
    (3, "read"),
    (4, "place"),
    (5, "compare"),
    (6, "name"),
    (7, "by mnemonic"),
    (8, "card"),
    (9, "page"),
    (10, "card from"),
];

#[derive(Default)]
pub struct Tally {
    numbers: BTreeMap<usize, usize>,
    answered: BTreeMap<u8, usize>,
    listed: usize,
    cards_listed: usize,
}

impl Tally {
    pub fn count_line(&mut self, kind: u8, line: &str) {
        match number_of(line) {
            Some(0) => *self.answered.entry(kind).or_default() += 1,
            Some(number) => *self.numbers.entry(number).or_default() += 1,
            None => {}
        }
    }

    pub fn count_listing(&mut self, text: &[u8]) {
        self.listed += usize::from(!self.count_refused(text));
    }

    pub fn count_card_listing(&mut self, text: &[u8]) {
        self.cards_listed += usize::from(!self.count_refused(text));
    }

    /// Whether the text is a refusal.
    fn count_refused(&mut self, text: &[u8]) -> bool {
        let text = String::from_utf8_lossy(text);
        let number = number_of(text.trim_end()).filter(|_| text.starts_with("refused "));
        if let Some(number) = number {
            *self.numbers.entry(number).or_default() += 1;
        }
        number.is_some()
    }

    fn times(&self, number: usize) -> usize {
        self.numbers.get(&number).copied().unwrap_or(0)
    }

    pub fn least(&self) -> usize {
        NUMBERS.iter().map(|&number| self.times(number)).min().unwrap_or(0)
    }

    pub fn print(&self) {
        for number in NUMBERS {
            println!("refusal {number}: {}", self.times(number));
        }
        for (kind, name) in KINDS {
            println!("answered {kind} ({name}): {}", self.answered.get(&kind).unwrap_or(&0));
        }
        println!("answered listing: {}", self.listed);
        println!("answered cards: {}", self.cards_listed);
    }
}
