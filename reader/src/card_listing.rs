//! The text that the program `cards` writes.

use crate::carding;
use crate::contents::Contents;
use crate::judging;
use crate::making;
use crate::reading;
use crate::wrong::{wrongly, Wrong};

/// Bytes lent for the table by the program.
const LENT: usize = 65_536;

const HEADING: &[u8] = b"position,name,sample,width,raw,value\n";

/// The rows of every frame found, or `refused N L` alone. A missing file is
/// given as empty.
pub fn listing(sheet: &[u8], stream: &[u8]) -> Vec<u8> {
    match rows(sheet, stream) {
        Ok(text) => text,
        Err((number, line)) => format!("refused {number} {line}\n").into_bytes(),
    }
}

fn rows(sheet: &[u8], stream: &[u8]) -> Result<Vec<u8>, (u8, u32)> {
    let contents = judging::judge(sheet).map_err(|refusal| (refusal.number, refusal.line))?;
    let table = making::table_bytes(&contents);
    if table.len() > LENT {
        return Err((17, 0));
    }
    let mut words = vec![0; contents.frame_words()];
    let mut text = HEADING.to_vec();
    let mut found = carding::card(&table, stream, &mut words).map_err(|number| (number, 0))?;
    loop {
        put_rows(&mut text, &contents, found.position, &words);
        let next = after(&table, found.position);
        found = match carding::card_from(&table, stream, next as u32, &mut words) {
            Ok(later) if !wrongly(Wrong::CardsFirstOnly) => later,
            Err(number) if wrongly(Wrong::CardsEndRefused) => return Err((number, 0)),
            _ => return Ok(text),
        };
        assert!(found.position >= next, "only a wrong reading goes back, and could do so for ever");
        if wrongly(Wrong::CardsAtOnce) && found.position != next {
            return Ok(text);
        }
        if wrongly(Wrong::CardsHeadings) {
            text.extend(HEADING);
        }
    }
}

/// Where the next frame may begin: behind the last one's last trailing bit.
fn after(table: &[u8], position: usize) -> usize {
    if wrongly(Wrong::CardsNextBit) {
        return position + 1;
    }
    position + carding::frame_bits(table)
}

/// A row for each parameter's each sample.
fn put_rows(text: &mut Vec<u8>, contents: &Contents, position: usize, words: &[u16]) {
    for parameter in &contents.parameters {
        for (index, sample) in parameter.samples.iter().enumerate() {
            let answer = reading::answer(contents, sample, parameter.signed, words);
            if wrongly(Wrong::CardsOverlap) && answer.kind == 2 {
                continue;
            }
            text.extend(format!("{position},").bytes());
            text.extend(&parameter.name);
            let row = format!(",{},{},{},{}\n", index + 1, answer.width, answer.raw, answer.value);
            text.extend(row.bytes());
        }
    }
}

#[cfg(test)]
mod tests {
    use super::*;
    use crate::listings::{wall_with, WALL};

    #[test]
    fn the_example_card() {
        let sheet = include_bytes!("../../examples/card/sheet.frcs");
        let stream = include_bytes!("../../examples/card/card.bin");
        let stored = include_str!("../../examples/card/listing");
        assert_eq!(String::from_utf8_lossy(&listing(sheet, stream)), stored);
    }

    #[test]
    fn the_example_card_of_a_blank_margin() {
        let sheet = include_bytes!("../../examples/card-blank-margin/sheet.frcs");
        let stream = include_bytes!("../../examples/card-blank-margin/card.bin");
        let stored = include_str!("../../examples/card-blank-margin/listing");
        assert_eq!(String::from_utf8_lossy(&listing(sheet, stream)), stored);
        assert_eq!(stored, "refused 26 0\n");
    }

    #[test]
    fn the_wall_twice_and_its_refusals() {
        let text = |sheet: &str, stream: &[u8]| {
            String::from_utf8_lossy(&listing(sheet.as_bytes(), stream)).into_owned()
        };
        let frame = [0x47, 0x52, 0, 0, 0x60, 0];
        let rows = |position: &str| format!("{position},Sync,1,12,583,583\n{position},Pitch,1,6,53,-11\n");
        let heading = "position,name,sample,width,raw,value\n";
        let wall = &wall_with("0,0")[..];
        assert_eq!(text(wall, &frame), [heading, &rows("0")].concat());
        let between = [&frame[..], &[0], &frame[..]].concat();
        assert_eq!(text(wall, &between), [heading, &rows("0"), &rows("56")].concat());
        let bare = "HEADER:\n2.0,,A,,,1,,,True,,,1,,\nRECORD:\n12,4,,,1.0\nNONE\n";
        assert_eq!(text("", &frame), "refused 4 1\n");
        assert_eq!(text(bare, &[0; 65_537]), "refused 27 0\n");
        assert_eq!(text(WALL, &frame), "refused 26 0\n");
        assert_eq!(text(&wall_with("3,"), &[]), "refused 26 0\n");
        assert_eq!(text(&wall_with(",1"), &[0; 65_537]), "refused 26 0\n");
        assert_eq!(text(wall, &[0; 65_537]), "refused 38 0\n");
        assert_eq!(text(wall, &[]), "refused 25 0\n");
    }
}
