//! What a location sheet or a table holds, apart from how it is spelled.

use crate::wrong::{wrongly, Wrong};

/// A sheet's refusal: its number and the line (0 where no line is named).
#[derive(Clone, Copy, Debug, PartialEq, Eq)]
pub struct Refusal {
    pub number: u8,
    pub line: u32,
}

#[derive(Clone, Debug, PartialEq, Eq)]
pub struct Contents {
    pub sequential: bool,
    pub subframes: Vec<Subframe>,
    pub parameters: Vec<Parameter>,
}

#[derive(Clone, Debug, PartialEq, Eq)]
pub struct Subframe {
    pub bits: u16,
    pub words: u16,
    /// Leading and trailing bits; none where they are unknown.
    pub leading: Option<u16>,
    pub trailing: Option<u16>,
    pub numerator: u64,
    pub denominator: u32,
}

#[derive(Clone, Debug, PartialEq, Eq)]
pub struct Parameter {
    pub name: Vec<u8>,
    pub mnemonic: Vec<u8>,
    pub identification: Vec<u8>,
    pub signed: bool,
    /// The value of a record identifier; none for other parameters.
    pub identifier: Option<u32>,
    pub samples: Vec<Sample>,
}

#[derive(Clone, Debug, PartialEq, Eq)]
pub struct Sample {
    /// Time offset in millionths of a second.
    pub time: u32,
    /// Least significant component first.
    pub components: Vec<Component>,
}

#[derive(Clone, Copy, Debug, PartialEq, Eq)]
pub struct Component {
    pub subframe: u16,
    pub word: u16,
    pub low: u8,
    pub high: u8,
    /// How many of its top bits stand in the next component too.
    pub overlap: u32,
}

impl Subframe {
    /// Leading and trailing bits, where an unknown margin counts none.
    pub fn margins(&self) -> [usize; 2] {
        [self.leading, self.trailing].map(|margin| usize::from(margin.unwrap_or(0)))
    }
}

impl Component {
    /// How many bits it has.
    pub fn bits(&self) -> u32 {
        u32::from(self.high) + 1 - u32::from(self.low)
    }

    pub fn shares_a_bit_with(&self, other: &Component) -> bool {
        let same_subframe = self.subframe == other.subframe || wrongly(Wrong::B50b);
        let same_bit = (self.low <= other.high && other.low <= self.high) || wrongly(Wrong::B50a);
        same_subframe && self.word == other.word && same_bit
    }
}

impl Sample {
    pub fn has_overlap(&self) -> bool {
        self.components.iter().any(|component| component.overlap != 0)
    }

    pub fn no_bit_twice(&self) -> bool {
        let components = &self.components;
        let shares = |earlier: usize, later: usize| {
            let copies = earlier + 1 == later && components[earlier].overlap != 0;
            let allowed = wrongly(Wrong::OverlapSameBits) && copies;
            !allowed && components[earlier].shares_a_bit_with(&components[later])
        };
        (0..components.len()).all(|later| !(0..later).any(|earlier| shares(earlier, later)))
    }

    pub fn shares_a_bit_with(&self, other: &Sample) -> bool {
        let shares = |one: &Component| other.components.iter().any(|c| c.shares_a_bit_with(one));
        self.components.iter().any(shares)
    }
}

impl Contents {
    pub fn sample_count(&self) -> usize {
        self.parameters.iter().map(|p| p.samples.len()).sum()
    }

    pub fn component_count(&self) -> usize {
        let samples = self.parameters.iter().flat_map(|p| &p.samples);
        samples.map(|s| s.components.len()).sum()
    }

    pub fn has_overlap(&self) -> bool {
        self.parameters.iter().flat_map(|p| &p.samples).any(Sample::has_overlap)
    }

    /// Words of a whole frame.
    pub fn frame_words(&self) -> usize {
        self.subframes.iter().map(|s| usize::from(s.words)).sum()
    }

    /// Where in the frame a component's word stands.
    pub fn word_place(&self, component: &Component) -> usize {
        let before = usize::from(component.subframe) - 1;
        let words = self.subframes[..before].iter().map(|s| usize::from(s.words));
        let start = words.sum::<usize>();
        if wrongly(Wrong::SlipWordsFromZero) {
            return (start + usize::from(component.word)).min(self.frame_words() - 1);
        }
        start + usize::from(component.word) - 1
    }
}
