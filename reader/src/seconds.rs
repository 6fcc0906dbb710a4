//! Seconds per subframe: a decimal, `N/D` or `W N/D`, as a fraction.

use crate::limits;
use crate::lines::trim;
use crate::spelling::{decimal, digits};
use crate::wrong::{wrongly, Wrong};

/// The fraction in lowest terms: 8, 6, 11.
pub fn seconds(field: &[u8]) -> Result<(u64, u32), u8> {
    if field.is_empty() {
        return Err(8);
    }
    match field.iter().position(|&byte| byte == b'/') {
        None => decimal_seconds(field),
        Some(stroke) => fraction(&field[..stroke], &field[stroke + 1..]),
    }
}

fn decimal_seconds(field: &[u8]) -> Result<(u64, u32), u8> {
    let millionths = decimal(field, limits::digits()).ok_or(6)?;
    if millionths == 0 {
        return Err(11);
    }
    if wrongly(Wrong::B29a) {
        return Ok((millionths, 1_000_000));
    }
    Ok(lowest_terms(millionths, 1_000_000))
}

/// Given what stands before and after the stroke.
fn fraction(before: &[u8], after: &[u8]) -> Result<(u64, u32), u8> {
    let (before, after) = if wrongly(Wrong::B28g) { (trim(before), trim(after)) } else { (before, after) };
    if wrongly(Wrong::B28a) && digits(before, limits::digits()) == Some(0) {
        return Err(11);
    }
    let below = digits(after, limits::digits()).ok_or(6)?;
    match before.iter().position(|&byte| byte == b' ' || (byte == 9 && wrongly(Wrong::B28f))) {
        None => plain_fraction(digits(before, limits::digits()).ok_or(6)?, below),
        Some(space) => {
            let rest = &before[space + 1..];
            let rest = if wrongly(Wrong::B28f) { trim(rest) } else { rest };
            let whole = digits(&before[..space], limits::digits()).ok_or(6)?;
            mixed_fraction(whole, digits(rest, limits::digits()).ok_or(6)?, below)
        }
    }
}

/// What a well spelled but bad fraction gives: 11.
fn bad() -> Result<(u64, u32), u8> {
    if wrongly(Wrong::B28h) {
        Err(6)
    } else {
        Err(11)
    }
}

fn plain_fraction(above: u64, below: u64) -> Result<(u64, u32), u8> {
    if above == 0 || below == 0 {
        return bad();
    }
    if wrongly(Wrong::B28b) && above >= below {
        return Err(11);
    }
    if wrongly(Wrong::B29b) {
        return Ok((above, below as u32));
    }
    Ok(lowest_terms(above, below))
}

fn mixed_fraction(whole: u64, above: u64, below: u64) -> Result<(u64, u32), u8> {
    if wrongly(Wrong::B28c) && whole == 0 {
        return Err(11);
    }
    let nought_passes = wrongly(Wrong::B28e) && whole > 0;
    if below == 0 || (above == 0 && !nought_passes) || (above >= below && !wrongly(Wrong::B28d)) {
        return bad();
    }
    let joined = whole * below + above;
    if wrongly(Wrong::B29c) {
        return Ok((joined, below as u32));
    }
    Ok(lowest_terms(joined, below))
}

fn lowest_terms(above: u64, below: u64) -> (u64, u32) {
    let divisor = greatest_common_divisor(above, below);
    (above / divisor, (below / divisor) as u32)
}

pub fn greatest_common_divisor(mut a: u64, mut b: u64) -> u64 {
    while b != 0 {
        (a, b) = (b, a % b);
    }
    a
}
