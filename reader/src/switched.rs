//! Whether each wrong reading shows in a batch.

use std::sync::atomic::{AtomicUsize, Ordering};
use std::sync::Mutex;
use std::thread;

use crate::batch::{self, Batch};
use crate::wrong::{self, Wrong};

/// Prints a line for each switch; answers whether all were seen.
pub fn switched(seed: u64, count: usize, jobs: usize) -> bool {
    let batch = batch::batch(seed, count);
    let right = answers(&batch);
    let seen = Mutex::new(vec![0; wrong::ALL.len()]);
    let next = AtomicUsize::new(0);
    thread::scope(|scope| {
        for _ in 0..jobs.max(1) {
            scope.spawn(|| loop {
                let index = next.fetch_add(1, Ordering::Relaxed);
                let Some((switch, _, _)) = wrong::ALL.get(index) else { return };
                let count = differing(&batch, &right, *switch);
                seen.lock().expect("no thread failed")[index] = count;
            });
        }
    });
    let seen = seen.into_inner().expect("no thread failed");
    for ((_, name, _), count) in wrong::ALL.iter().zip(&seen) {
        match count {
            0 => println!("{name}: NOT SEEN"),
            1 => println!("{name}: seen in 1 case"),
            _ => println!("{name}: seen in {count} cases"),
        }
    }
    seen.iter().all(|&count| count > 0)
}

struct Answers {
    lines: Vec<String>,
    listings: Vec<Vec<u8>>,
    card_listings: Vec<Vec<u8>>,
}

fn answers(batch: &Batch) -> Answers {
    Answers {
        lines: batch.cases.iter().map(|case| case.line()).collect(),
        listings: batch.listings.iter().map(|listing| listing.expected()).collect(),
        card_listings: batch.card_listings.iter().map(|listing| listing.expected()).collect(),
    }
}

/// In how many cases the switch changes the answer to another one. Cases on
/// which the wrong reading only fails do not count.
fn differing(batch: &Batch, right: &Answers, switch: Wrong) -> usize {
    wrong::switch_on(Some(switch));
    let differs = |wrong: &[u8], right: &[u8]| wrong != right && !wrong.starts_with(b"failed");
    let lines = batch.cases.iter().zip(&right.lines);
    let lines = lines.filter(|(case, line)| differs(case.line().as_bytes(), line.as_bytes())).count();
    let texts = batch.listings.iter().zip(&right.listings);
    let texts = texts.filter(|(listing, text)| differs(&listing.expected(), text)).count();
    let cards = batch.card_listings.iter().zip(&right.card_listings);
    let cards = cards.filter(|(listing, text)| differs(&listing.expected(), text)).count();
    wrong::switch_on(None);
    lines + texts + cards
}
