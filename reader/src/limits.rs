//! The limits that the scope paper names. A wrong reading may take one of
//! them as one less or one more.

use crate::wrong::{wrongly, Wrong};

fn bound(limit: usize, one_less: Wrong, one_more: Wrong) -> usize {
    limit + usize::from(wrongly(one_more)) - usize::from(wrongly(one_less))
}

pub fn sheet() -> usize {
    bound(65_536, Wrong::B1a, Wrong::LimitSheetMore)
}

/// Bytes of a card's stream.
pub fn stream() -> usize {
    bound(65_536, Wrong::CardStreamLess, Wrong::CardStreamMore)
}

pub fn line() -> usize {
    bound(1024, Wrong::LimitLineLess, Wrong::LimitLineMore)
}

pub fn text() -> usize {
    bound(200, Wrong::LimitTextLess, Wrong::LimitTextMore)
}

/// Name, mnemonic and identification.
pub fn name() -> usize {
    bound(64, Wrong::LimitNameLess, Wrong::LimitNameMore)
}

pub fn subframes() -> usize {
    bound(32, Wrong::LimitSubframesLess, Wrong::LimitSubframesMore)
}

pub fn word_bits() -> usize {
    bound(16, Wrong::LimitBitsLess, Wrong::LimitBitsMore)
}

pub fn words() -> usize {
    bound(1024, Wrong::LimitWordsLess, Wrong::LimitWordsMore)
}

/// Leading and trailing bits.
pub fn margin() -> usize {
    bound(4095, Wrong::LimitMarginLess, Wrong::LimitMarginMore)
}

pub fn parameters() -> usize {
    bound(512, Wrong::LimitParametersLess, Wrong::LimitParametersMore)
}

pub fn samples_each() -> usize {
    bound(64, Wrong::LimitSamplesEachLess, Wrong::LimitSamplesEachMore)
}

/// One sample more would be one component more too, so that only the smaller
/// number can be seen.
pub fn samples() -> usize {
    4096 - usize::from(wrongly(Wrong::LimitSamplesLess))
}

pub fn components_each() -> usize {
    bound(8, Wrong::LimitComponentsEachLess, Wrong::LimitComponentsEachMore)
}

pub fn components() -> usize {
    bound(4096, Wrong::LimitComponentsLess, Wrong::LimitComponentsMore)
}

pub fn width() -> usize {
    bound(32, Wrong::LimitWidthLess, Wrong::LimitWidthMore)
}

pub fn label() -> usize {
    bound(0o377, Wrong::LimitLabelLess, Wrong::LimitLabelMore)
}

pub fn source_bits() -> usize {
    bound(32, Wrong::LimitSourceBitsLess, Wrong::LimitSourceBitsMore)
}

pub fn identifier_value() -> usize {
    bound(4_294_967_295, Wrong::LimitValueLess, Wrong::LimitValueMore)
}

/// Digits of an integer, and of each number in the seconds.
pub fn digits() -> usize {
    bound(6, Wrong::LimitDigitsLess, Wrong::LimitDigitsMore)
}

pub fn value_digits() -> usize {
    bound(10, Wrong::LimitValueDigitsLess, Wrong::LimitValueDigitsMore)
}

pub fn time_digits() -> usize {
    bound(3, Wrong::LimitTimeDigitsLess, Wrong::LimitTimeDigitsMore)
}

/// Digits after a decimal's point.
pub fn digits_after_point() -> usize {
    6 - usize::from(wrongly(Wrong::LimitAfterPointLess))
}
