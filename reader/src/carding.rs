//! Reading a quick access card, a stream of bits: 18, 27, 26, 38, 25, 28.
//!
//! The low bit of each byte comes first, and the low bit of each word. A
//! subframe is its leading bits, its words, its trailing bits.

use crate::checking::{self, Table};
use crate::contents::{Component, Contents, Sample, Subframe};
use crate::limits;
use crate::wrong::{wrongly, Wrong};

/// The frame handed out: how many bits stand before it, and its words' count.
#[derive(Clone, Copy, Debug, PartialEq, Eq)]
pub struct Found {
    pub position: usize,
    pub count: usize,
}

/// Puts the words of the first frame to the front of the lent words. A
/// refusal writes nothing.
pub fn card(table: &[u8], stream: &[u8], words: &mut [u16]) -> Result<Found, u8> {
    sought(table, stream, 0, words)
}

/// The same for the first frame that does not begin before `from`.
pub fn card_from(table: &[u8], stream: &[u8], from: u32, words: &mut [u16]) -> Result<Found, u8> {
    let beyond = from as usize > 8 * stream.len();
    let from = match from as usize {
        _ if wrongly(Wrong::CardFromIgnored) || (wrongly(Wrong::CardFromBeyond) && beyond) => 0,
        from if wrongly(Wrong::CardFromAfter) => from + 1,
        from if wrongly(Wrong::CardFromCut) => from % 65_536,
        from => from,
    };
    let found = sought(table, stream, from, words)?;
    let before = if wrongly(Wrong::CardPositionFrom) { from } else { 0 };
    Ok(Found { position: found.position - before, ..found })
}

fn sought(table: &[u8], stream: &[u8], from: usize, words: &mut [u16]) -> Result<Found, u8> {
    let table = checking::check(table).ok_or(18)?;
    judge_stream(&table, stream)?;
    let contents = table.contents;
    let frame_words = contents.frame_words();
    if wrongly(Wrong::Card28First) && words.len() < frame_words {
        return Err(28);
    }
    let cut = wrongly(Wrong::CardStreamCut);
    let card = Card::of(&contents, &stream[..if cut { stream.len().min(65_536) } else { stream.len() }]);
    let position = card.first_position(from).ok_or(25)?;
    if wrongly(Wrong::Card25First) && stream.len() > limits::stream() {
        return Err(38);
    }
    let lent = words.len();
    hand_out(&card.frame_at(position), words)?;
    let leading = if wrongly(Wrong::CardPositionWord) { card.starts[0] } else { 0 };
    let count = if wrongly(Wrong::CardCountLent) { lent } else { frame_words };
    Ok(Found { position: position + leading, count })
}

/// 27, 26, then 38.
fn judge_stream(table: &Table, stream: &[u8]) -> Result<(), u8> {
    let judged_later = wrongly(Wrong::CardStreamCut) || wrongly(Wrong::Card25First);
    let too_long = stream.len() > limits::stream() && !judged_later;
    let unknown = !margins_are_known(table);
    let bare = table.contents.parameters.is_empty();
    let judged = [
        (too_long && wrongly(Wrong::Card38First), 38),
        (unknown && wrongly(Wrong::Card26First), 26),
        (bare && !wrongly(Wrong::CardNoParameters), 27),
        (unknown && !wrongly(Wrong::Card26After38), 26),
        (too_long, 38),
        (unknown, 26),
    ];
    judged.iter().find(|(given, _)| *given).map_or(Ok(()), |&(_, number)| Err(number))
}

/// Nobody can tell what form 1's margins are.
fn margins_are_known(table: &Table) -> bool {
    let subframes = &table.contents.subframes;
    if table.form == 1 {
        let zero = subframes.iter().any(|s| s.margins().contains(&0));
        return wrongly(Wrong::CardFormOne) || (wrongly(Wrong::CardFormOneZeros) && !zero);
    }
    if wrongly(Wrong::Card26FirstSubframe) {
        return subframe_margins_are_known(&subframes[0]);
    }
    if wrongly(Wrong::Card26LastSubframe) {
        return subframes.last().is_some_and(subframe_margins_are_known);
    }
    subframes.iter().all(subframe_margins_are_known)
}

fn subframe_margins_are_known(subframe: &Subframe) -> bool {
    let [leading, trailing] = [subframe.leading, subframe.trailing].map(|margin| margin.is_some());
    if wrongly(Wrong::Card26Both) {
        return leading || trailing;
    }
    let never_asked = wrongly(Wrong::Card26Never);
    (leading || never_asked || wrongly(Wrong::Card26Trailing))
        && (trailing || never_asked || wrongly(Wrong::Card26Leading))
}

fn hand_out(frame: &[u16], words: &mut [u16]) -> Result<(), u8> {
    let front = frame.len().min(words.len());
    let too_short = front < frame.len() || (wrongly(Wrong::Card28Exact) && frame.len() == words.len());
    if !too_short || wrongly(Wrong::Card28Writes) || wrongly(Wrong::Card28Never) {
        words[..front].copy_from_slice(&frame[..front]);
    }
    if too_short && !wrongly(Wrong::Card28Never) {
        return Err(28);
    }
    if wrongly(Wrong::CardWipes) {
        words[front..].fill(0);
    }
    Ok(())
}

/// Bits of a frame on a card; 0 where the bytes are no table or its margins
/// are not known.
pub fn frame_bits(table: &[u8]) -> usize {
    let table = checking::check(table).filter(margins_are_known);
    table.map_or(0, |table| frame_length(&table.contents))
}

/// Bits of a whole frame, margins included.
pub fn frame_length(contents: &Contents) -> usize {
    (0..contents.subframes.len()).map(|index| subframe_bits(contents, index)).sum()
}

fn subframe_bits(contents: &Contents, index: usize) -> usize {
    let [leading, trailing] = margins(contents, index);
    leading + usize::from(contents.subframes[index].words) * word_bits(contents, index) + trailing
}

/// Leading and trailing bits.
fn margins(contents: &Contents, index: usize) -> [usize; 2] {
    let index = if wrongly(Wrong::CardFirstMargins) { 0 } else { index };
    let [leading, trailing] = contents.subframes[index].margins();
    let leading = if wrongly(Wrong::CardNoLeading) { 0 } else { leading };
    let trailing = if wrongly(Wrong::CardNoTrailing) { 0 } else { trailing };
    [leading, trailing]
}

fn word_bits(contents: &Contents, index: usize) -> usize {
    let index = if wrongly(Wrong::CardFirstBits) { 0 } else { index };
    usize::from(contents.subframes[index].bits)
}

/// Where an identifier's components stand in its value.
fn places(sample: &Sample) -> Vec<u32> {
    if !wrongly(Wrong::CardOverlapNone) {
        return sample.places();
    }
    let before = |index: usize| sample.components[..index].iter().map(Component::bits).sum();
    (0..sample.components.len()).map(before).collect()
}

/// A stream, and where a frame of these contents has what.
struct Card<'c> {
    contents: &'c Contents,
    stream: &'c [u8],
    /// Bits of a frame before each subframe's first word.
    starts: Vec<usize>,
    /// The bits of a frame that must be so: those of the record identifiers.
    due: Vec<(usize, bool)>,
}

impl Card<'_> {
    fn of<'c>(contents: &'c Contents, stream: &'c [u8]) -> Card<'c> {
        let mut starts = Vec::new();
        let mut before = 0;
        for index in 0..contents.subframes.len() {
            starts.push(before + margins(contents, index)[0]);
            before += subframe_bits(contents, index);
        }
        let mut card = Card { contents, stream, starts, due: vec![] };
        card.due = card.identifier_bits();
        if wrongly(Wrong::CardBlankMargins) {
            card.due.extend(card.margin_bits());
        }
        card
    }

    /// Where in a frame the bit of a word stands, all counted from 0.
    fn place(&self, subframe: usize, word: usize, bit: usize) -> usize {
        let bits = word_bits(self.contents, subframe);
        let bit = if wrongly(Wrong::CardWordHighFirst) { bits - 1 - bit } else { bit };
        self.starts[subframe] + word * bits + bit
    }

    /// Each identifier's bits as its value has them.
    fn identifier_bits(&self) -> Vec<(usize, bool)> {
        let mut due = Vec::new();
        for parameter in &self.contents.parameters {
            let Some(value) = parameter.identifier else { continue };
            let sample = &parameter.samples[0];
            for (component, first) in sample.components.iter().zip(places(sample)) {
                if wrongly(Wrong::CardFirstIdentifier) && component.subframe != 1 {
                    continue;
                }
                let [subframe, word] = [component.subframe, component.word].map(|n| usize::from(n) - 1);
                let copies = if wrongly(Wrong::CardOverlapRaw) { component.overlap } else { 0 };
                for bit in 0..component.bits() - copies {
                    let set = u64::from(value) >> (first + bit) & 1 == 1;
                    due.push((
                        self.place(subframe, word, (u32::from(component.low) - 1 + bit) as usize),
                        set,
                    ));
                }
            }
        }
        due
    }

    /// Every margin's bits as 0, which only a wrong reading asks.
    fn margin_bits(&self) -> Vec<(usize, bool)> {
        let each = (0..self.starts.len()).flat_map(|index| {
            let [leading, trailing] = margins(self.contents, index);
            let end = self.starts[index] - leading + subframe_bits(self.contents, index);
            (self.starts[index] - leading..self.starts[index]).chain(end - trailing..end)
        });
        each.map(|place| (place, false)).collect()
    }

    fn bit(&self, place: usize) -> bool {
        let within = if wrongly(Wrong::CardByteHighFirst) { 7 - place % 8 } else { place % 8 };
        self.stream[place / 8] >> within & 1 == 1
    }

    /// The least position from here on at which a whole frame fits and every
    /// record identifier agrees.
    fn first_position(&self, from: usize) -> Option<usize> {
        let last_trailing = margins(self.contents, self.starts.len() - 1)[1];
        let open_end = if wrongly(Wrong::CardOpenEnd) { last_trailing } else { 0 };
        let last = (8 * self.stream.len()).checked_sub(frame_length(self.contents) - open_end)?;
        let step = if wrongly(Wrong::CardWholeBytes) { 8 } else { 1 };
        let mut positions = (from.next_multiple_of(step)..=last).step_by(step);
        if wrongly(Wrong::CardLastPosition) {
            return positions.filter(|&position| self.agrees_at(position)).last();
        }
        positions.find(|&position| self.agrees_at(position))
    }

    fn agrees_at(&self, position: usize) -> bool {
        self.due.iter().all(|&(place, set)| self.bit(position + place) == set)
    }

    fn frame_at(&self, position: usize) -> Vec<u16> {
        let position = if wrongly(Wrong::CardOtherWords) { position - position % 8 } else { position };
        let mut frame = Vec::new();
        for (index, subframe) in self.contents.subframes.iter().enumerate() {
            for word in 0..usize::from(subframe.words) {
                let bits = 0..word_bits(self.contents, index);
                let weighted =
                    bits.map(|bit| u16::from(self.bit(position + self.place(index, word, bit))) << bit);
                frame.push(weighted.sum());
            }
        }
        frame
    }
}

#[cfg(test)]
mod tests {
    use super::*;
    use crate::comparing;
    use crate::making;
    use crate::random::Random;
    use crate::streams;

    /// The identifiers agree at a position exactly when comparing the words
    /// handed out there passes.
    #[test]
    fn found_where_comparing_passes_first() {
        let mut random = Random::seeded(8);
        for _ in 0..400 {
            let contents = streams::contents(&mut random);
            let stream = streams::drawn(&mut random, &contents).bytes();
            let card = Card::of(&contents, &stream);
            let fitting = (8 * stream.len() + 1).saturating_sub(frame_length(&contents));
            let passes = |&p: &usize| comparing::first_differing(&contents, &card.frame_at(p)).is_none();
            let first = (0..fitting.min(500)).find(passes);
            if first.is_some() || fitting <= 500 {
                assert_eq!(card.first_position(0), first);
            }
        }
    }

    /// Where the card calls give 26 a frame's bits are 0.
    #[test]
    fn refused_26_or_bits_known() {
        let mut random = Random::seeded(10);
        for turn in 0..400 {
            let unknown = turn % 2 == 0;
            let drawn = if unknown { streams::of_unknown_margins } else { streams::contents };
            let contents = drawn(&mut random);
            let forms = if contents.has_overlap() { 3..=3 } else { 1..=3 };
            for form in forms {
                let table = making::table_of_form(form, &contents);
                let refused = form == 1 || unknown;
                let bits = if refused { 0 } else { frame_length(&contents) };
                assert_eq!(frame_bits(&table), bits);
                let number = card(&table, &[], &mut []).err();
                assert_eq!(number, Some(if refused { 26 } else { 25 }));
            }
        }
        assert_eq!(frame_bits(&[]), 0);
    }

    #[test]
    fn a_frame_put_is_found_or_an_earlier_one() {
        let mut random = Random::seeded(9);
        for _ in 0..400 {
            let contents = streams::contents(&mut random);
            let mut stream = streams::Stream::new(&mut random);
            let before = random.below(30);
            stream.fill(&mut random, before);
            stream.put_agreeing(&mut random, &contents);
            let table = making::table_bytes(&contents);
            let mut words = vec![7; contents.frame_words() + 1];
            let found = card(&table, &stream.bytes(), &mut words).expect("a frame is there");
            assert!(found.position <= before);
            assert_eq!(words[found.count], 7);
            let at = card_from(&table, &stream.bytes(), before as u32, &mut words);
            assert_eq!(at.map(|found| found.position), Ok(before));
        }
    }
}
