//! How a sample's components are joined, the least significant first. Where a
//! component overlaps the next one, its top bits stand in both.

use crate::contents::{Component, Contents, Sample};
use crate::limits;
use crate::wrong::{wrongly, Wrong};

impl Sample {
    /// Where each component's lowest bit stands in the sample, counted from 0.
    pub fn places(&self) -> Vec<u32> {
        let mut places = Vec::new();
        let mut next = 0;
        for (index, component) in self.components.iter().enumerate() {
            if wrongly(Wrong::OverlapBefore) && index > 0 {
                next -= component.overlap.min(next);
            }
            places.push(next);
            next += if wrongly(Wrong::OverlapBefore) { component.bits() } else { own_bits(component) };
        }
        places
    }

    /// The last component's place and all its bits.
    pub fn width(&self) -> u32 {
        let Some(last) = self.components.last() else { return 0 };
        let place = self.places()[self.components.len() - 1];
        place + if wrongly(Wrong::OverlapLastSubtracted) { own_bits(last) } else { last.bits() }
    }

    /// The sum of all components' bits, which only a wrong reading asks.
    pub fn all_bits(&self) -> u32 {
        self.components.iter().map(Component::bits).sum()
    }
}

/// The bits that the next component does not have.
fn own_bits(component: &Component) -> u32 {
    component.bits().saturating_sub(component.overlap)
}

/// Each component's bits as a number.
pub fn parts(contents: &Contents, sample: &Sample, frame: &[u16]) -> Vec<u64> {
    let part = |component: &Component| {
        let word = u64::from(frame[contents.word_place(component)]);
        (word >> (component.low - 1)) % (1 << component.bits())
    };
    sample.components.iter().map(part).collect()
}

/// Where two components overlap the higher one's bits stand.
pub fn raw_value(sample: &Sample, parts: &[u64]) -> u64 {
    let places = sample.places();
    let last = parts.len() - 1;
    let mut raw = 0;
    for (index, component) in sample.components.iter().enumerate() {
        let given = if index == last { component.bits() } else { own_bits(component) };
        let low_end = wrongly(Wrong::OverlapLowEnd) && index < last;
        let part = if low_end { parts[index] >> component.overlap } else { parts[index] % (1 << given) };
        raw = match () {
            _ if wrongly(Wrong::OverlapAdded) => raw + (parts[index] << places[index]),
            _ if wrongly(Wrong::OverlapEither) => raw | parts[index] << places[index],
            _ if wrongly(Wrong::OverlapLowerStands) => over(raw, parts[index], &places, sample, index),
            _ => raw + (part << places[index]),
        };
    }
    raw
}

/// What is already joined stands, and the part adds only what lies above it.
fn over(raw: u64, part: u64, places: &[u32], sample: &Sample, index: usize) -> u64 {
    let end = |index: usize| places[index] + sample.components[index].bits();
    let joined = (0..index).map(end).max().unwrap_or(0);
    raw + ((part << places[index]) >> joined << joined)
}

/// Whether every component is its bits of this value.
pub fn agrees(sample: &Sample, parts: &[u64], value: u64) -> bool {
    let places = sample.places();
    let components = &sample.components;
    let compared = match () {
        _ if wrongly(Wrong::OverlapFirstPair) => 0..1,
        _ if wrongly(Wrong::OverlapLastPair) => components.len().saturating_sub(2)..components.len(),
        _ => 0..components.len(),
    };
    compared.into_iter().all(|index| {
        let bits = compared_bits(components, index);
        (value >> places[index]) % (1 << bits) == parts[index] % (1 << bits)
    })
}

/// A wrong reading does not look beyond the next component's own bits.
fn compared_bits(components: &[Component], index: usize) -> u32 {
    let bits = components[index].bits();
    match components.get(index + 1) {
        Some(next) if wrongly(Wrong::OverlapTwoFold) => {
            let above = if index + 2 == components.len() { next.bits() } else { own_bits(next) };
            bits.min(own_bits(&components[index]) + above)
        }
        _ => bits,
    }
}

/// The rule of 14 at the line of the sample's last component so far.
pub fn component_is_sound(sample: &Sample) -> bool {
    let Some((last, before)) = sample.components.split_last() else { return true };
    let judged_later = wrongly(Wrong::OverlapOwnNextLine) || wrongly(Wrong::OverlapOwnTimeLine);
    let late = wrongly(Wrong::OverlapOwnNextLine) && before.last().is_some_and(|one| !overlap_is_below(one));
    let twice = !wrongly(Wrong::B20a) && !sample.no_bit_twice();
    let wide = !wrongly(Wrong::B20b) && width_so_far(sample) > limits::width() as u32;
    (judged_later || overlap_is_below(last)) && !late && !twice && !wide && overlap_before_fits(sample)
}

/// All of the last component's bits count, also those that overlap.
fn width_so_far(sample: &Sample) -> u32 {
    let last = sample.components.last().map_or(0, |last| last.overlap);
    match () {
        _ if wrongly(Wrong::OverlapWidthSoFar) => sample.width().saturating_sub(last),
        _ if wrongly(Wrong::OverlapWideSum) => sample.all_bits(),
        _ => sample.width(),
    }
}

/// None, or fewer than its own bits.
fn overlap_is_below(component: &Component) -> bool {
    let most = if wrongly(Wrong::OverlapAllBits) { component.bits() + 1 } else { component.bits() };
    component.overlap == 0 || component.overlap < most
}

/// The component before overlaps no more bits than the last one so far has.
pub fn overlap_before_fits(sample: &Sample) -> bool {
    let [.., before, last] = &sample.components[..] else { return true };
    if wrongly(Wrong::OverlapNotThreeFold) {
        return before.overlap <= last.bits().saturating_sub(last.overlap);
    }
    before.overlap <= last.bits() || wrongly(Wrong::OverlapAboveNext)
}

/// The rule of 14 at the time line, apart from unequal widths.
pub fn sample_is_sound(sample: &Sample) -> bool {
    let Some(last) = sample.components.last() else { return true };
    let unasked = wrongly(Wrong::OverlapLastIgnored) || wrongly(Wrong::OverlapLastSubtracted);
    let own = !wrongly(Wrong::OverlapOwnTimeLine) || sample.components.iter().all(overlap_is_below);
    let own_late = !wrongly(Wrong::OverlapOwnNextLine) || overlap_is_below(last);
    let last_sound = last.overlap == 0 || unasked || (wrongly(Wrong::OverlapOnlyOne) && several(sample));
    last_sound && own && own_late && sample.width() >= 1
}

fn several(sample: &Sample) -> bool {
    sample.components.len() > 1
}

pub fn widths_are_equal(one: &Sample, other: &Sample) -> bool {
    if wrongly(Wrong::OverlapEqualSums) {
        return one.all_bits() == other.all_bits();
    }
    one.width() == other.width()
}

/// What only a wrong reading finds at the last sample's time line.
pub fn wrongly_late(samples: &[Sample]) -> bool {
    let Some((last, before)) = samples.split_last() else { return false };
    (wrongly(Wrong::B20a) && !last.no_bit_twice())
        || (wrongly(Wrong::B20b) && last.width() > limits::width() as u32)
        || (wrongly(Wrong::B48a) && before.iter().any(|sample| sample.shares_a_bit_with(last)))
        || (wrongly(Wrong::B49) && before.iter().any(|s| s.components == last.components))
}

/// The overlaps of a sample in a table.
pub fn overlaps_are_sound(sample: &Sample) -> bool {
    let Some((last, _)) = sample.components.split_last() else { return true };
    let pairs = sample.components.windows(2);
    let below = sample.components.iter().all(overlap_is_below) || wrongly(Wrong::TableOverlapOwn);
    let fits = pairs.into_iter().all(|pair| pair[0].overlap <= pair[1].bits());
    below
        && (fits || wrongly(Wrong::TableOverlapNext))
        && (last.overlap == 0 || wrongly(Wrong::TableOverlapLast))
}

#[cfg(test)]
mod tests {
    use super::*;
    use crate::frames;
    use crate::lawful;
    use crate::placing;
    use crate::random::Random;

    /// Copies agree exactly when some value has every component as its bits,
    /// and then that value is raw.
    #[test]
    fn agreeing_is_being_one_value() {
        let mut random = Random::seeded(12);
        let mut both = [0, 0];
        while both[0] < 300 || both[1] < 300 {
            let contents = lawful::with_parameters(&mut random);
            let frame = frames::fitting(&mut random, &contents);
            for sample in contents.parameters.iter().flat_map(|p| &p.samples) {
                if !sample.has_overlap() || sample.width() > 9 {
                    continue;
                }
                let parts = parts(&contents, sample, &frame);
                let raw = raw_value(sample, &parts);
                assert!(raw < 1 << sample.width());
                let held = |value: &u64| {
                    let mut other = frame.clone();
                    placing::write(&contents, sample, &mut other, *value);
                    other == frame
                };
                let values: Vec<u64> = (0..1 << sample.width()).filter(held).collect();
                let agrees = agrees(sample, &parts, raw);
                assert_eq!(values, if agrees { vec![raw] } else { vec![] });
                both[usize::from(agrees)] += 1;
            }
        }
    }

    /// The running width never falls, so that the last one is the most.
    #[test]
    fn width_of_a_beginning_is_not_above_the_whole() {
        let mut random = Random::seeded(13);
        for _ in 0..300 {
            let contents = lawful::with_parameters(&mut random);
            for sample in contents.parameters.iter().flat_map(|p| &p.samples) {
                let beginning =
                    |count: usize| Sample { time: 0, components: sample.components[..count].to_vec() };
                let widths: Vec<u32> =
                    (1..=sample.components.len()).map(|count| beginning(count).width()).collect();
                assert!(widths.is_sorted() && widths[0] >= 1);
            }
        }
    }
}
