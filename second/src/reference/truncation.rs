//! Document 01, "Truncation and int (002)", with A3's exponent byte 145.

use super::addition::subtract;
use super::edition::Edition;
use super::number::{form, passes_zero_test, pow2, store_full, store_short, Form, Scaled, ODD};
use crate::{Bytes, ZERO};

const SHORT_ONE: Bytes = [0, 0, 1, 0, 0];

pub fn truncate(edition: Edition, b: Bytes) -> Bytes {
    match form(b) {
        Form::Full(x) => truncate_full(edition, x),
        _ => b,
    }
}

fn truncate_full(edition: Edition, x: Scaled) -> Bytes {
    if x.exponent <= 128 {
        return ZERO;
    }
    if x.exponent >= 160 {
        return store_full(x);
    }
    let fraction = pow2((160 - x.exponent) as u32);
    // Rust's division goes towards zero.
    let whole = x.units / fraction;
    match x.exponent {
        129..=144 => store_short(whole),
        145 if edition == Edition::Shipped && whole == -65_536 => ODD,
        _ => store_full(Scaled {
            units: whole * fraction,
            ..x
        }),
    }
}

/// `None` would be report 6; no operand of int gives it.
pub fn int(edition: Edition, x: Bytes) -> Option<Bytes> {
    let t = truncate(edition, x);
    if x[1] < 0x80 {
        return Some(t);
    }
    let d = subtract(edition, x, t)?;
    if passes_zero_test(d) {
        Some(t)
    } else {
        subtract(edition, t, SHORT_ONE)
    }
}
