//! Numbers of parameters and samples to ask for.

use crate::contents::Contents;
use crate::random::Random;

/// Numbers in range, mostly, or just beyond it, or far from it.
pub fn number(random: &mut Random, count: usize) -> u32 {
    let inside = random.between(1, count.max(1)) as u32;
    match random.below(24) {
        0 => 0,
        1 => count as u32 + 1,
        2 => 65_536 + inside,
        3 => 256 + inside,
        4 => *random.pick(&[u32::MAX, 1 << 31, 1000]),
        _ => inside,
    }
}

/// A parameter's number and a sample's.
pub fn numbers(random: &mut Random, contents: &Contents) -> (u32, u32) {
    let parameter = number(random, contents.parameters.len());
    let index = (parameter as usize).wrapping_sub(1);
    let samples = contents.parameters.get(index).map_or(1, |p| p.samples.len());
    (parameter, number(random, samples))
}
