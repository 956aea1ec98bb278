//! Document 02, A1, "Multiplication": the product of the mantissas as one exact whole number.

use super::ending::too_small;
use super::number::{form, pow2, re_stacked, store_full, store_short, Form, Scaled};
use crate::{Bytes, ZERO};

/// `None` is report 6. The operands are well formed.
pub fn multiply(first: Bytes, second: Bytes) -> Option<Bytes> {
    if let (Some(a), Some(b)) = (short_value(first), short_value(second)) {
        if (a * b).abs() <= 65_535 {
            return Some(store_short(a * b));
        }
    }
    multiply_full(re_stacked(first), re_stacked(second))
}

/// The value where b1 is zero. Unlike in a sum, odd counts as zero here.
fn short_value(b: Bytes) -> Option<i128> {
    match form(b) {
        Form::Short(value) => Some(value),
        Form::Odd => Some(0),
        _ => None,
    }
}

fn multiply_full(a: Scaled, b: Scaled) -> Option<Bytes> {
    if a.units == 0 || b.units == 0 {
        return Some(ZERO);
    }
    let p = (a.units * b.units).abs();
    let negative = (a.units < 0) != (b.units < 0);
    let sum = a.exponent + b.exponent;
    let (places, exponent) = if p >= pow2(63) {
        (32, sum - 128)
    } else {
        (31, sum - 129)
    };
    // Asked before rounding: what would be carried up from -1 to 0 is zero all the same.
    if exponent <= 0 {
        return Some(too_small(negative, exponent));
    }
    let rounded = (p + pow2(places - 1)) / pow2(places);
    let (mantissa, exponent) = if rounded == pow2(32) {
        (pow2(31), exponent + 1)
    } else {
        (rounded, exponent)
    };
    if exponent > 255 {
        return None;
    }
    let units = if negative { -mantissa } else { mantissa };
    Some(store_full(Scaled { units, exponent }))
}
