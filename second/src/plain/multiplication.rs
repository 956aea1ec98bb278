//! Multiplication of two neighbouring slots; the result goes into the first. The forms are
//! branched to: selected, they take half as many instructions again, and three times the time
//! where all are of one form. From there on it goes straight to the end.

use super::number::{
    is_operand, least, signed, store_value, store_word, word, Short, Slot, SIGN, ZERO,
};
use super::MENDED;
use crate::reference::{DONE, MALFORMED, TOO_BIG};
use std::hint::cold_path;

/// What two exponent bytes and the place of the product's top digit are more than its exponent:
/// 128, and 63 for the place where it is 2^63.
const OFF: i32 = 128 + 63;

#[inline(always)]
pub fn multiply<const EDITION: u8>(first: &mut Slot, second: &Slot) -> u8 {
    if first[0] != 0 {
        let a = word(first);
        if second[0] != 0 {
            return full_by_full(first, a, second);
        }
        let Some(b) = Short::load(second) else {
            return MALFORMED;
        };
        return short_by_full::<EDITION>(first, b, first[0], a);
    }
    let Some(a) = Short::load(first) else {
        return MALFORMED;
    };
    if second[0] != 0 {
        return short_by_full::<EDITION>(first, a, second[0], word(second));
    }
    let Some(b) = Short::load(second) else {
        return MALFORMED;
    };
    short_by_short::<EDITION>(first, second, a, b)
}

/// The product has 32 digits at most: it is exact in either form.
#[inline(always)]
fn short_by_short<const EDITION: u8>(first: &mut Slot, second: &Slot, a: Short, b: Short) -> u8 {
    let product = a.magnitude() * b.magnitude();
    let sign = (a.sign ^ b.sign) as i32;
    if product <= 0xFFFF {
        // Odd counts as zero. It is looked for in the slots, so that nothing is kept for it.
        if EDITION == MENDED && product == 0 {
            cold_path();
            if !is_operand(word(first)) || !is_operand(word(second)) {
                return MALFORMED;
            }
        }
        store_value(first, (product as i32 ^ sign) - sign);
        return DONE;
    }
    let top = product.ilog2();
    first[0] = (129 + top) as u8;
    store_word(first, signed(product << (31 - top), sign));
    DONE
}

/// The short number is not made normal first: it is as if its exponent byte were 160. Such a
/// product is never too small.
#[inline(always)]
fn short_by_full<const EDITION: u8>(first: &mut Slot, short: Short, exponent: u8, full: u32) -> u8 {
    let product = u64::from(short.magnitude()) * u64::from(full | SIGN);
    if product == 0 {
        cold_path();
        if short.zero_is_refused::<EDITION>() {
            return MALFORMED;
        }
        *first = ZERO;
        return DONE;
    }
    let (mantissa, top) = rounded(product);
    let exponent = i32::from(exponent) + top + 160 - OFF;
    if exponent > 255 {
        cold_path();
        return TOO_BIG;
    }
    store(first, exponent, mantissa, short.sign as i32 ^ full as i32)
}

#[inline(always)]
fn full_by_full(first: &mut Slot, a: u32, second: &Slot) -> u8 {
    let b = word(second);
    let sign = (a ^ b) as i32;
    let (mantissa, top) = rounded(u64::from(a | SIGN) * u64::from(b | SIGN));
    let exponents = i32::from(first[0]) + i32::from(second[0]) + top;
    // One question for both ends. An exponent of 0 that was carried to 1 is stored as the
    // smallest number, which it is.
    if (exponents - (OFF + 1)) as u32 > 254 {
        cold_path();
        let exponent = exponents - OFF;
        if exponent > 255 {
            return TOO_BIG;
        }
        // It counts before rounding: where that was carried, the top bit is clear.
        return least(first, exponent - i32::from(mantissa >> 63 == 0), sign);
    }
    store(first, exponents - OFF, mantissa, sign)
}

/// The product with its top digit in bit 63, rounded at the lower half, and the place that the
/// digit had. Where rounding carries beyond it, zeros are left and the place is one more.
#[inline(always)]
fn rounded(product: u64) -> (u64, i32) {
    let top = product.ilog2();
    let (product, carry) = (product << (63 - top)).overflowing_add(1 << 31);
    (product, top as i32 + i32::from(carry))
}

#[inline(always)]
fn store(first: &mut Slot, exponent: i32, mantissa: u64, sign: i32) -> u8 {
    first[0] = exponent as u8;
    store_word(first, (mantissa >> 32) as u32 & !SIGN | sign as u32 & SIGN);
    DONE
}
