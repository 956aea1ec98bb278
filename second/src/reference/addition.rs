//! Document 01, "Addition and subtraction (003)", with A2's fifth byte of a short sum and A3's
//! -65,536.

use super::edition::Edition;
use super::ending::ending;
use super::number::{form, negate, pow2, re_stacked, store_short, Form, Scaled, MINUS_65536};
use crate::Bytes;

/// `None` is report 6. The operands are well formed.
pub fn add(edition: Edition, first: Bytes, second: Bytes) -> Option<Bytes> {
    if let (Some(a), Some(b)) = (short_value(first), short_value(second)) {
        if (-65_536..=65_535).contains(&(a + b)) {
            return Some(stored_over(edition, first, a + b));
        }
    }
    add_full(re_stacked(first), re_stacked(second))
}

pub fn subtract(edition: Edition, first: Bytes, second: Bytes) -> Option<Bytes> {
    add(edition, first, negate(second))
}

/// A2: only the second, third and fourth bytes of a short sum are stored, odd ones included. A3:
/// the mended edition has none of those, and writes -65,536 in full.
fn stored_over(edition: Edition, first: Bytes, sum: i128) -> Bytes {
    if edition == Edition::Mended && sum == -65_536 {
        return MINUS_65536;
    }
    let [b1, _, _, _, b5] = first;
    let [_, b2, b3, b4, _] = store_short(sum);
    [b1, b2, b3, b4, b5]
}

/// The value on the short route, where odd stands for -65,536.
fn short_value(b: Bytes) -> Option<i128> {
    match form(b) {
        Form::Short(value) => Some(value),
        Form::Odd => Some(-65_536),
        _ => None,
    }
}

fn add_full(a: Scaled, b: Scaled) -> Option<Bytes> {
    let exponent = a.exponent.max(b.exponent);
    let sum = aligned(a, exponent) + aligned(b, exponent);
    let (sum, exponent) = if sum.abs() >= pow2(32) {
        (nearest(sum, 1), exponent + 1)
    } else {
        (sum, exponent)
    };
    if exponent > 255 {
        return None;
    }
    ending(sum < 0, sum.abs(), 0, exponent)
}

/// The number in units of the larger exponent. Beyond 32 places |x| / 2^s is below a half,
/// so the same rounding gives the 0 that document 01 asks for.
fn aligned(x: Scaled, exponent: i32) -> i128 {
    nearest(x.units, (exponent - x.exponent).min(64) as u32)
}

/// The whole number nearest to x / 2^s, halves towards plus infinity; x itself at s = 0.
fn nearest(x: i128, s: u32) -> i128 {
    (2 * x + pow2(s)).div_euclid(pow2(s + 1))
}
