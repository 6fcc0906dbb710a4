//! The check of a table: refusal 18.

use crate::contents::{Component, Contents, Parameter, Sample, Subframe};
use crate::fields::equal_names;
use crate::identifiers;
use crate::joining;
use crate::limits;
use crate::making::{self, HEADER_SIZE, PARAMETER_SIZE, SAMPLE_SIZE, SUBFRAME_SIZE};
use crate::seconds::greatest_common_divisor;
use crate::shortest;
use crate::wrong::{wrongly, Wrong};

/// What an accepted table holds, and where each name stands in its bytes.
pub struct Table {
    pub form: usize,
    pub contents: Contents,
    pub name_starts: Vec<usize>,
    pub text_start: usize,
}

/// None where the bytes aren't a table.
pub fn check(bytes: &[u8]) -> Option<Table> {
    let bytes = without_later_bytes(bytes);
    let header = Header::of(bytes)?;
    let (form, text_start) = (header.form, header.offsets[4]);
    let parts = Parts { bytes, header };
    let subframes = parts.subframes()?;
    let (parameters, name_starts) = parts.parameters()?;
    let contents = Contents { sequential: parts.header.flags % 2 == 1, subframes, parameters };
    require(components_lie_within(&contents))?;
    if !wrongly(Wrong::SlipTrustedTable) {
        require(samples_are_sound(&contents.parameters))?;
        require(names_differ(&contents.parameters))?;
        require(identifiers_are_sound(&contents))?;
    }
    require(!wrongly(Wrong::B65) || shortest::length(&contents) <= limits::sheet())?;
    Some(Table { form, contents, name_starts, text_start })
}

fn without_later_bytes(bytes: &[u8]) -> &[u8] {
    if wrongly(Wrong::B57) && bytes.len() >= 4 {
        return &bytes[..bytes.len().min(get4(bytes, 0) as usize)];
    }
    bytes
}

fn require(holds: bool) -> Option<()> {
    holds.then_some(())
}

/// A limit that only the named wrong reading does not test.
fn limit(holds: bool, untested_by: Wrong) -> Option<()> {
    require(holds || wrongly(untested_by))
}

fn get1(bytes: &[u8], at: usize) -> u8 {
    bytes[at]
}

fn get2(bytes: &[u8], at: usize) -> usize {
    usize::from(u16::from_le_bytes([bytes[at], bytes[at + 1]]))
}

fn get4(bytes: &[u8], at: usize) -> u32 {
    u32::from_le_bytes([bytes[at], bytes[at + 1], bytes[at + 2], bytes[at + 3]])
}

fn get8(bytes: &[u8], at: usize) -> u64 {
    u64::from(get4(bytes, at)) + (u64::from(get4(bytes, at + 4)) << 32)
}

struct Header {
    subframes: usize,
    parameters: usize,
    samples: usize,
    components: usize,
    flags: usize,
    form: usize,
    offsets: [usize; 5],
}

impl Header {
    fn of(bytes: &[u8]) -> Option<Header> {
        require(bytes.len() >= HEADER_SIZE)?;
        limit(get4(bytes, 0) as usize == bytes.len(), Wrong::B58f)?;
        let [subframes, parameters, samples, components] = [4, 6, 8, 10].map(|at| get2(bytes, at));
        limit(subframes >= 1, Wrong::TableNoSubframes)?;
        limit(subframes <= limits::subframes(), Wrong::B60a)?;
        limit(parameters <= limits::parameters(), Wrong::B60e)?;
        require(samples <= limits::samples())?;
        limit(components <= limits::components(), Wrong::B60i)?;
        let flags = get2(bytes, 12);
        limit(flags <= 1, Wrong::B62a)?;
        let form = get2(bytes, 14);
        require(form_is_known(form))?;
        let offsets = making::offsets(form, [subframes, parameters, samples, components]);
        offsets_are_stored(bytes, &offsets)?;
        require(offsets[4] <= bytes.len())?;
        Some(Header { subframes, parameters, samples, components, flags, form, offsets })
    }
}

fn form_is_known(form: usize) -> bool {
    match form {
        1 => !wrongly(Wrong::TableFormOne),
        2 => !wrongly(Wrong::TableFormTwo),
        3 => !wrongly(Wrong::TableFormThree),
        4 if wrongly(Wrong::TableFormFour) => true,
        _ => wrongly(Wrong::TableForm),
    }
}

fn offsets_are_stored(bytes: &[u8], offsets: &[usize; 5]) -> Option<()> {
    let untested_by = [Wrong::B58a, Wrong::B58b, Wrong::B58c, Wrong::B58d, Wrong::B58e];
    for part in 0..5 {
        let stored = get4(bytes, 16 + 4 * part) as usize;
        limit(stored == offsets[part], untested_by[part])?;
    }
    Some(())
}

struct Parts<'t> {
    bytes: &'t [u8],
    header: Header,
}

impl Parts<'_> {
    fn entry(&self, part: usize, index: usize, size: usize) -> &[u8] {
        let start = self.header.offsets[part] + index * size;
        &self.bytes[start..start + size]
    }

    fn subframes(&self) -> Option<Vec<Subframe>> {
        let entries = (0..self.header.subframes).map(|i| self.entry(0, i, SUBFRAME_SIZE));
        entries.map(|entry| subframe(entry, self.header.form)).collect()
    }

    /// The parameters, where each one's samples, components and text follow
    /// at once on the one before, and nothing is left over.
    fn parameters(&self) -> Option<(Vec<Parameter>, Vec<usize>)> {
        let mut parameters = Vec::new();
        let mut name_starts = Vec::new();
        let mut next = Next { sample: 0, component: 0, text: self.header.offsets[4] };
        for index in 0..self.header.parameters {
            name_starts.push(next.text);
            parameters.push(self.parameter(index, &mut next)?);
        }
        limit(next.sample == self.header.samples, Wrong::TableSampleSum)?;
        limit(next.component == self.header.components, Wrong::TableComponentSum)?;
        limit(next.text == self.bytes.len(), Wrong::TableTextSum)?;
        Some((parameters, name_starts))
    }

    fn parameter(&self, index: usize, next: &mut Next) -> Option<Parameter> {
        let entry = self.entry(1, index, PARAMETER_SIZE);
        limit(get4(entry, 4) as usize == next.text - self.header.offsets[4], Wrong::B59a)?;
        limit(get2(entry, 8) == next.sample, Wrong::B59b)?;
        let count = get2(entry, 10);
        limit(count >= 1, Wrong::TableNoSamples)?;
        limit(count <= limits::samples_each(), Wrong::B60f)?;
        let flags = get1(entry, 3);
        limit(flags <= 3, Wrong::B62b)?;
        let value = get4(entry, 12);
        let is_identifier = flags & 2 != 0;
        limit(is_identifier || value == 0, Wrong::TableValue)?;
        let [name, mnemonic, identification] = self.texts(entry, next)?;
        let samples = (0..count).map(|_| self.sample(next)).collect::<Option<Vec<_>>>()?;
        let signed = flags & 1 != 0;
        let identifier = is_identifier.then_some(value);
        Some(Parameter { name, mnemonic, identification, signed, identifier, samples })
    }

    fn texts(&self, entry: &[u8], next: &mut Next) -> Option<[Vec<u8>; 3]> {
        let start = next.text;
        let name = self.text(get1(entry, 0), next)?;
        limit(!name.is_empty(), Wrong::TableEmptyName)?;
        require(text_is_sound(&name))?;
        let mnemonic = self.text(get1(entry, 1), next)?;
        let identification = self.text(get1(entry, 2), next)?;
        let only_name = wrongly(Wrong::B63c);
        require(only_name || (text_is_sound(&mnemonic) && text_is_sound(&identification)))?;
        require(!wrongly(Wrong::B63f) || edges_are_sound(&self.bytes[start..next.text]))?;
        Some([name, mnemonic, identification])
    }

    fn text(&self, length: u8, next: &mut Next) -> Option<Vec<u8>> {
        let length = usize::from(length);
        limit(length <= limits::name(), Wrong::B60k)?;
        let text = self.bytes.get(next.text..next.text + length)?;
        next.text += length;
        Some(text.to_vec())
    }

    fn sample(&self, next: &mut Next) -> Option<Sample> {
        require(next.sample < self.header.samples)?;
        let entry = self.entry(2, next.sample, SAMPLE_SIZE);
        next.sample += 1;
        let time = get4(entry, 0);
        limit(time <= 999_999_999, Wrong::TableTime)?;
        limit(get2(entry, 4) == next.component, Wrong::B59c)?;
        let count = get2(entry, 6);
        limit(count >= 1, Wrong::TableNoComponents)?;
        limit(count <= limits::components_each(), Wrong::B60h)?;
        let components = (0..count).map(|_| self.component(next)).collect::<Option<Vec<_>>>()?;
        Some(Sample { time, components })
    }

    fn component(&self, next: &mut Next) -> Option<Component> {
        require(next.component < self.header.components)?;
        let size = making::component_size(self.header.form);
        let entry = self.entry(3, next.component, size);
        next.component += 1;
        let [subframe, word] = [0, 2].map(|at| get2(entry, at) as u16);
        let [low, high] = [4, 5].map(|at| get1(entry, at));
        let overlap = if size == 8 { overlap(entry)? } else { 0 };
        Some(Component { subframe, word, low, high, overlap })
    }
}

/// The byte after it must be 0.
fn overlap(entry: &[u8]) -> Option<u32> {
    limit(get1(entry, 7) == 0, Wrong::TableZeroByte)?;
    Some(u32::from(get1(entry, 6)))
}

/// Where the next sample, component and text must begin.
struct Next {
    sample: usize,
    component: usize,
    text: usize,
}

fn text_is_sound(text: &[u8]) -> bool {
    let sound_byte = |&byte: &u8| match byte {
        9 => wrongly(Wrong::B63d),
        b',' => wrongly(Wrong::B63a),
        32..=126 => true,
        _ => byte > 126 && wrongly(Wrong::B63e),
    };
    let edges_later = wrongly(Wrong::B63f) || wrongly(Wrong::B63b);
    wrongly(Wrong::SlipTrustedTable)
        || (text.iter().all(sound_byte) && (edges_later || edges_are_sound(text)))
}

fn edges_are_sound(text: &[u8]) -> bool {
    text.first() != Some(&b' ') && text.last() != Some(&b' ')
}

fn subframe(entry: &[u8], form: usize) -> Option<Subframe> {
    let [bits, words] = [0, 2].map(|at| get2(entry, at));
    limit(bits >= 1, Wrong::TableNoBits)?;
    limit(words >= 1, Wrong::TableNoWords)?;
    limit(bits <= limits::word_bits(), Wrong::B60b)?;
    limit(words <= limits::words(), Wrong::B60c)?;
    let leading = margin(get2(entry, 4), form)?;
    let trailing = margin(get2(entry, 6), form)?;
    let numerator = get8(entry, 8);
    let denominator = get4(entry, 16);
    fraction_is_sound(numerator, denominator)?;
    Some(Subframe { bits: bits as u16, words: words as u16, leading, trailing, numerator, denominator })
}

/// Form 1 knows no unknown margin.
fn margin(stored: usize, form: usize) -> Option<Option<u16>> {
    if stored == usize::from(making::UNKNOWN) && (form != 1 || wrongly(Wrong::B66)) {
        return Some(None);
    }
    let untested = wrongly(Wrong::B60d) || (wrongly(Wrong::TableMarginFormTwo) && form != 1);
    require(stored <= limits::margin() || untested)?;
    Some(Some(stored as u16))
}

/// Lowest terms, at least 1 above, 1 to 1,000,000 below, less than 1,000,000.
fn fraction_is_sound(numerator: u64, denominator: u32) -> Option<()> {
    limit(numerator >= 1, Wrong::B64d)?;
    limit((1..=1_000_000).contains(&denominator), Wrong::TableDenominator)?;
    require(!wrongly(Wrong::B64c) || denominator < 1_000_000)?;
    require(!wrongly(Wrong::B64b) || numerator < 1_000_000)?;
    limit(numerator < 1_000_000 * u64::from(denominator), Wrong::B64e)?;
    let divisor = greatest_common_divisor(numerator, u64::from(denominator));
    require(divisor == 1 || wrongly(Wrong::B64a) || (wrongly(Wrong::B64d) && numerator == 0))
}

/// Numbers from 1, low not above high, and the rule of 13.
fn components_lie_within(contents: &Contents) -> bool {
    let samples = contents.parameters.iter().flat_map(|p| &p.samples);
    samples.flat_map(|s| &s.components).all(|component| lies_within(component, &contents.subframes).is_some())
}

fn lies_within(component: &Component, subframes: &[Subframe]) -> Option<()> {
    let Some(index) = usize::from(component.subframe).checked_sub(1) else {
        return require(wrongly(Wrong::TableSubframeZero));
    };
    let Some(declared) = subframes.get(index) else {
        return require(wrongly(Wrong::TableSubframeHigh));
    };
    limit(component.word >= 1, Wrong::TableWordZero)?;
    limit(component.word <= declared.words, Wrong::TableWordHigh)?;
    limit(component.low >= 1, Wrong::TableLowZero)?;
    limit(component.low <= component.high, Wrong::TableLowAboveHigh)?;
    limit(u16::from(component.high) <= declared.bits, Wrong::TableHighBit)
}

/// The rule of 14.
fn samples_are_sound(parameters: &[Parameter]) -> bool {
    parameters.iter().all(|parameter| {
        let width = parameter.samples.first().map_or(1, Sample::width);
        let width_is_sound = width <= limits::width() as u32 || wrongly(Wrong::B60j);
        let widths_are_equal = parameter.samples.iter().all(|sample| sample.width() == width);
        let bits_are_single = parameter.samples.iter().all(Sample::no_bit_twice);
        let overlaps_are_sound = parameter.samples.iter().all(joining::overlaps_are_sound);
        width_is_sound
            && overlaps_are_sound
            && (widths_are_equal || wrongly(Wrong::TableUnequalWidth))
            && (bits_are_single || wrongly(Wrong::TableBitTwice))
    })
}

/// The rule of 15.
fn names_differ(parameters: &[Parameter]) -> bool {
    if wrongly(Wrong::TableEqualNames) {
        return true;
    }
    (0..parameters.len())
        .all(|later| parameters[..later].iter().all(|earlier| !equal_names(earlier, &parameters[later])))
}

/// The rule of 16, free of which is a table without parameters.
fn identifiers_are_sound(contents: &Contents) -> bool {
    if contents.parameters.is_empty() {
        return !wrongly(Wrong::B61);
    }
    if wrongly(Wrong::TableIdentifiers) {
        return true;
    }
    let lines = vec![0; contents.parameters.len()];
    identifiers::judge(contents, &lines).is_ok()
}
