//! Document 01, "The bench and its numbers": what five bytes stand for, as whole numbers.

use crate::{Bytes, ZERO};

pub const ODD: Bytes = [0, 0xFF, 0, 0, 0];

/// The full number of that value, which odd stands for in a short sum.
pub const MINUS_65536: Bytes = [0x91, 0x80, 0, 0, 0];

/// A value of `units` times 2^(exponent - 160), where `exponent` is an exponent byte. A
/// re-stacked number has `units` from 2^31 to 2^32 - 1 with its sign, or is all zero.
#[derive(Clone, Copy, Debug, PartialEq, Eq)]
pub struct Scaled {
    pub units: i128,
    pub exponent: i32,
}

#[derive(Clone, Copy, Debug, PartialEq, Eq)]
pub enum Form {
    Full(Scaled),
    Short(i128),
    Odd,
    Malformed,
}

pub fn pow2(n: u32) -> i128 {
    1i128 << n
}

/// How many binary digits a positive whole number has.
pub fn length(n: i128) -> u32 {
    128 - n.leading_zeros()
}

pub fn form(b: Bytes) -> Form {
    let low_half = i128::from(b[2]) + 256 * i128::from(b[3]);
    match (b[0], b[1]) {
        (0, 0x00) => Form::Short(low_half),
        (0, 0xFF) if low_half == 0 => Form::Odd,
        (0, 0xFF) => Form::Short(low_half - 65_536),
        (0, _) => Form::Malformed,
        _ => {
            let digits = i128::from(u32::from_be_bytes([b[1], b[2], b[3], b[4]]));
            let units = if digits >= pow2(31) {
                -digits
            } else {
                digits + pow2(31)
            };
            Form::Full(Scaled {
                units,
                exponent: i32::from(b[0]),
            })
        }
    }
}

/// 004: a zero has its first four bytes zero; the fifth carries no meaning.
pub fn passes_zero_test(b: Bytes) -> bool {
    b[..4] == [0; 4]
}

/// The value of a well-formed number as the full route sees it: odd counts as zero.
pub fn re_stacked(b: Bytes) -> Scaled {
    let zero = Scaled {
        units: 0,
        exponent: 0,
    };
    match form(b) {
        Form::Full(full) => full,
        Form::Short(value) if value != 0 => {
            let digits = length(value.abs());
            Scaled {
                units: value * pow2(32 - digits),
                exponent: 128 + digits as i32,
            }
        }
        _ => zero,
    }
}

/// Literal 61: a full number stays, byte for byte.
pub fn re_stack(b: Bytes) -> Bytes {
    store_full(re_stacked(b))
}

/// The full form. `units` is zero or has exactly 32 digits.
pub fn store_full(number: Scaled) -> Bytes {
    if number.units == 0 {
        return ZERO;
    }
    let below_top_bit = number.units.abs() - pow2(31);
    let sign = if number.units < 0 { pow2(31) } else { 0 };
    let [b2, b3, b4, b5] = ((below_top_bit + sign) as u32).to_be_bytes();
    [number.exponent as u8, b2, b3, b4, b5]
}

/// The short form of -65,536 to 65,535 with b5 = 0; -65,536 comes out odd.
pub fn store_short(value: i128) -> Bytes {
    let low_half = value.rem_euclid(65_536);
    let sign = if value < 0 { 0xFF } else { 0 };
    [0, sign, (low_half % 256) as u8, (low_half / 256) as u8, 0]
}

pub fn negate(b: Bytes) -> Bytes {
    if passes_zero_test(b) {
        return b;
    }
    match form(b) {
        Form::Full(full) => store_full(Scaled {
            units: -full.units,
            ..full
        }),
        Form::Short(value) => store_short(-value),
        _ => ZERO,
    }
}
