//! The text that the listing program writes.

use crate::comparing;
use crate::contents::Contents;
use crate::judging;
use crate::making;
use crate::reading;
use crate::wrong::{wrongly, Wrong};

/// Bytes lent for the table by the listing program.
const LENT: usize = 65_536;

const HEADING: &[u8] = b"name,sample,width,raw,value\n";

/// The listing, or `refused N L` alone. A missing file is given as empty.
pub fn listing(sheet: &[u8], frame: &[u8]) -> Vec<u8> {
    match rows(sheet, frame) {
        Ok(text) => text,
        Err((number, line)) => {
            let heading = if wrongly(Wrong::B77b) { HEADING } else { b"" };
            [heading, format!("refused {number} {line}\n").as_bytes()].concat()
        }
    }
}

fn rows(sheet: &[u8], frame: &[u8]) -> Result<Vec<u8>, (u8, u32)> {
    if wrongly(Wrong::B77a) && frame.len() % 2 == 1 {
        return Err((19, 0));
    }
    let sheet = if wrongly(Wrong::B79a) { &sheet[..sheet.len().min(LENT)] } else { sheet };
    let contents = judging::judge(sheet).map_err(|refusal| (refusal.number, refusal.line))?;
    let lent = if wrongly(Wrong::B82) { 2 * LENT } else { LENT };
    if making::table_bytes(&contents).len() > lent {
        return Err((17, 0));
    }
    let words = frame_words(&contents, frame)?;
    if wrongly(Wrong::B78) {
        comparing::first_differing(&contents, &words).map_or(Ok(()), |_| Err((24, 0)))?;
    }
    Ok(text(&contents, &words))
}

/// The frame's words, judged by 19 and 20 for a `NONE` sheet too.
fn frame_words(contents: &Contents, frame: &[u8]) -> Result<Vec<u16>, (u8, u32)> {
    if wrongly(Wrong::B80) && contents.parameters.is_empty() {
        return Ok(vec![]);
    }
    let frame = if wrongly(Wrong::B79b) { &frame[..frame.len().min(LENT)] } else { frame };
    if frame.len() % 2 == 1 && !wrongly(Wrong::B77c) {
        return Err((19, 0));
    }
    let words: Vec<u16> = frame.chunks_exact(2).map(|pair| u16::from_le_bytes([pair[0], pair[1]])).collect();
    reading::judge_frame(contents, &words).map_err(|number| (number, 0))?;
    Ok(words)
}

/// The heading, then a row for each parameter's each sample.
fn text(contents: &Contents, words: &[u16]) -> Vec<u8> {
    if wrongly(Wrong::B81) && contents.parameters.is_empty() {
        return vec![];
    }
    let mut text = HEADING.to_vec();
    let mut written = 0;
    for parameter in &contents.parameters {
        for (index, sample) in parameter.samples.iter().enumerate() {
            let answer = reading::answer(contents, sample, parameter.signed, words);
            if wrongly(Wrong::ListingOverlap) && answer.kind == 2 {
                continue;
            }
            text.extend(&parameter.name);
            let number = sample_number(index, written);
            let row = format!(",{},{},{},{}\n", number, answer.width, answer.raw, answer.value);
            text.extend(row.bytes());
            written += 1;
        }
    }
    text
}

/// Numbers of samples count from 1 within their parameter.
fn sample_number(index: usize, written: usize) -> usize {
    if wrongly(Wrong::B83a) {
        return written + 1;
    }
    if wrongly(Wrong::B83b) {
        index
    } else {
        index + 1
    }
}

#[cfg(test)]
mod tests {
    use super::*;

    /// The section's altitude: once 35,000, once 34,815 in subframe 1 and
    /// 34,816 in subframe 3.
    #[test]
    fn the_examples_of_overlap() {
        let agreeing = (
            &include_bytes!("../../examples/overlap/sheet.frcs")[..],
            &include_bytes!("../../examples/overlap/frame.bin")[..],
            include_str!("../../examples/overlap/listing"),
            "Altitude,1,18,35000,35000\n",
        );
        let rolled_over = (
            &include_bytes!("../../examples/overlap-rolled-over/sheet.frcs")[..],
            &include_bytes!("../../examples/overlap-rolled-over/frame.bin")[..],
            include_str!("../../examples/overlap-rolled-over/listing"),
            "Altitude,1,18,36863,36863\n",
        );
        for (sheet, frame, stored, row) in [agreeing, rolled_over] {
            assert_eq!(String::from_utf8_lossy(&listing(sheet, frame)), stored);
            assert!(stored.ends_with(row));
        }
    }
}
