//! Truncation and int: what is left of a full number without its part below one.

use super::number::{
    bits, is_operand, store_value, store_word, word, Short, Slot, MINUS_65536, ODD, SIGN, ZERO,
};
use super::MENDED;
use crate::reference::{DONE, MALFORMED};
use std::hint::cold_path;

#[inline(always)]
pub fn truncate<const EDITION: u8>(x: &mut Slot) -> u8 {
    let (e, word) = (x[0], word(x));
    if e == 0 && EDITION == MENDED {
        return short_in_mended(word);
    }
    if e == 0 {
        return match Short::load(x) {
            Some(_) => DONE,
            None => MALFORMED,
        };
    }
    if e >= 160 {
        return DONE;
    }
    if e <= 128 {
        *x = ZERO;
        return DONE;
    }
    let places = 160 - u32::from(e);
    if e <= 144 {
        let whole = ((word | SIGN) >> places) as i32;
        x[0] = 0;
        store_value(x, if word & SIGN != 0 { -whole } else { whole });
        return DONE;
    }
    if is_65536_below_zero::<EDITION>(e, word) {
        *x = ODD;
        return DONE;
    }
    store_word(x, word & u32::MAX << places);
    DONE
}

/// Down to the next whole number. Odd, given or made by truncating, is taken for zero on the
/// way and becomes -1; the mended edition has none.
#[inline(always)]
pub fn int<const EDITION: u8>(x: &mut Slot) -> u8 {
    const MINUS_ONE: Slot = [0x81, 0x80, 0, 0, 0];
    let (e, bits) = (x[0], bits(x));
    if e == 0 && EDITION == MENDED {
        return short_in_mended(bits.swap_bytes());
    }
    if e == 0 {
        if !matches!(bits as u8, 0 | 0xFF) {
            cold_path();
            return MALFORMED;
        }
        if bits & 0x00FF_FFFF == 0xFF {
            cold_path();
            *x = MINUS_ONE;
        }
        return DONE;
    }
    if e >= 160 {
        return DONE;
    }
    let word = bits.swap_bytes();
    let sign = word as i32 >> 31;
    if e <= 128 {
        x[0] = 0;
        store_value(x, sign);
        return DONE;
    }
    let places = 160 - u32::from(e);
    if e <= 144 {
        let mantissa = i64::from(word | SIGN);
        let mantissa = if sign != 0 { -mantissa } else { mantissa };
        let down = (mantissa >> places) as i32;
        if EDITION == MENDED && down == -65_536 {
            cold_path();
            *x = MINUS_65536;
            return DONE;
        }
        x[0] = 0;
        store_value(x, down);
        return DONE;
    }
    if is_65536_below_zero::<EDITION>(e, word) {
        *x = MINUS_ONE;
        return DONE;
    }
    // A negative mantissa goes up to the next multiple; past the top it is a power of two.
    let part = !(u32::MAX << places);
    match word.checked_add(part & sign as u32) {
        Some(up) => store_word(x, up & !part),
        None => {
            cold_path();
            x[0] = e + 1;
            store_word(x, SIGN);
        }
    }
    DONE
}

/// The mended edition's report of a number whose b1 is 0, which stays as it is.
#[inline(always)]
fn short_in_mended(word: u32) -> u8 {
    if !is_operand(word) {
        cold_path();
        return MALFORMED;
    }
    DONE
}

/// What truncation makes odd of; nothing in the mended edition.
#[inline(always)]
fn is_65536_below_zero<const EDITION: u8>(e: u8, word: u32) -> bool {
    if EDITION != MENDED && e == 145 {
        cold_path();
        return word >> 15 == SIGN >> 15;
    }
    false
}
