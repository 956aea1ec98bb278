//! Division of two neighbouring slots; the result goes into the first.

use super::number::{least, signed, store_word, word, Short, Slot, SIGN, ZERO};
use super::MENDED;
use crate::reference::{DONE, MALFORMED, TOO_BIG};
use std::hint::cold_path;

#[inline(always)]
pub fn divide<const EDITION: u8>(first: &mut Slot, second: &Slot) -> u8 {
    let (exponent, dividend, sign) = if first[0] != 0 {
        let word = word(first);
        (i32::from(first[0]), word, word as i32)
    } else {
        let Some(short) = Short::load(first) else {
            return MALFORMED;
        };
        let Some((exponent, mantissa)) = short.normal() else {
            if short.zero_is_refused::<EDITION>() {
                return MALFORMED;
            }
            return zero_by::<EDITION>(first, second);
        };
        (exponent, mantissa, short.sign as i32)
    };
    let (exponent, divisor, sign) = if second[0] != 0 {
        let word = word(second);
        (exponent - i32::from(second[0]), word, sign ^ word as i32)
    } else {
        let Some(short) = Short::load(second) else {
            return MALFORMED;
        };
        let Some((less, mantissa)) = short.normal() else {
            if short.zero_is_refused::<EDITION>() {
                return MALFORMED;
            }
            return TOO_BIG;
        };
        (exponent - less, mantissa, sign ^ short.sign as i32)
    };
    // The top bit stands where a full number has its sign. A short one has it already; set
    // here for both, it spares the compiler's question whether the numbers are small ones.
    let (dividend, divisor) = (u64::from(dividend | SIGN) << 32, u64::from(divisor | SIGN));
    let quotient = dividend / divisor;
    // A quotient of 32 digits has taken in its 33rd digit. In the shipped edition it is not
    // rounded; in the mended one by its 34th, for which what is left is doubled and tried again.
    let longer = quotient >> 32;
    let up = if EDITION == MENDED && 2 * (dividend % divisor) >= divisor {
        1
    } else {
        longer
    };
    let mantissa = ((quotient + up) >> longer) as u32;
    let exponent = exponent + 128 + longer as i32;
    if exponent > 255 {
        cold_path();
        return TOO_BIG;
    }
    if exponent <= 0 {
        cold_path();
        return least(first, exponent, sign);
    }
    first[0] = exponent as u8;
    store_word(first, signed(mantissa, sign));
    DONE
}

/// A dividend that counts as zero.
#[inline(always)]
fn zero_by<const EDITION: u8>(first: &mut Slot, second: &Slot) -> u8 {
    if second[0] == 0 {
        match Short::load_operand::<EDITION>(second) {
            None => return MALFORMED,
            Some(short) if short.normal().is_none() => return TOO_BIG,
            Some(_) => {}
        }
    }
    *first = ZERO;
    DONE
}
