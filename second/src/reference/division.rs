//! Document 01, "Division (001, 000)": the 33 digits, or A3's 34, by one exact division.

use super::edition::Edition;
use super::ending::ending;
use super::number::{pow2, re_stacked};
use crate::{Bytes, ZERO};

/// `None` is report 6. The operands are well formed.
pub fn divide(edition: Edition, first: Bytes, second: Bytes) -> Option<Bytes> {
    let (dividend, divisor) = (re_stacked(first), re_stacked(second));
    if divisor.units == 0 {
        return None;
    }
    if dividend.units == 0 {
        return Some(ZERO);
    }
    // Trial subtraction with doubling writes the quotient's binary digits, 32 for T and then
    // those that round it. Digits after the last of them are 0.
    let places = rounding_digits(edition);
    let digits = dividend.units.abs() * pow2(31 + places) / divisor.units.abs();
    let negative = (dividend.units < 0) != (divisor.units < 0);
    let exponent = dividend.exponent - divisor.exponent + 129;
    ending(negative, digits, places, exponent)
}

/// The 33rd digit rounds in either edition. The shipped ROM's 34th round does not double, so that
/// digit is 0; A3 has it double, and then the 34th digit is one as any other.
fn rounding_digits(edition: Edition) -> u32 {
    match edition {
        Edition::Shipped => 1,
        Edition::Mended => 2,
    }
}
