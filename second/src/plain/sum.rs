//! Addition and subtraction of two neighbouring slots; the result goes into the first.
//! Signs and exponents are drawn at random where this is measured, so what depends on them
//! is selected and not branched to: branches take a tenth fewer instructions and twice the
//! time.

use super::number::{
    is_spread_operand, least, signed, spread, store_spread, store_sum, store_word, word, Short,
    Slot, GAP, MINUS_65536, ODD, SIGN, ZERO,
};
use super::MENDED;
use crate::reference::{DONE, MALFORMED, TOO_BIG};
use std::hint::cold_path;

#[inline(always)]
pub fn add<const EDITION: u8>(first: &mut Slot, second: &Slot) -> u8 {
    sum::<EDITION>(first, second, false)
}

#[inline(always)]
pub fn subtract<const EDITION: u8>(first: &mut Slot, second: &Slot) -> u8 {
    sum::<EDITION>(first, second, true)
}

/// A mantissa with its sign, and the exponent byte; both 0 for what counts as zero.
#[derive(Default)]
struct Term {
    mantissa: i64,
    exponent: i32,
}

#[inline(always)]
fn negated_if(yes: bool, x: i64) -> i64 {
    if yes {
        -x
    } else {
        x
    }
}

#[inline(always)]
fn full(x: &Slot, negated: bool) -> Term {
    let word = word(x) ^ if negated { SIGN } else { 0 };
    Term {
        mantissa: negated_if(word & SIGN != 0, (word | SIGN).into()),
        exponent: x[0].into(),
    }
}

#[inline(always)]
fn short(x: Short, negated: bool) -> Term {
    let Some((exponent, mantissa)) = x.normal() else {
        return Term::default();
    };
    let mantissa = (i64::from(mantissa) ^ x.sign) - x.sign;
    Term {
        mantissa: negated_if(negated, mantissa),
        exponent,
    }
}

/// The short route as the ROM has it, which is the fewest instructions here too: the low halves,
/// and the signs with their carry, which is a sign where the sum is short. What is not is exact in
/// full, and nothing is re-stacked for it; only odd counts as zero there, and then nothing is stored.
#[inline(always)]
fn stored_short(first: &mut Slot, a: Short, b: Short, negated: bool) -> bool {
    if negated && b.low == 0 {
        cold_path();
        // Odd, negated, is zero: the first number stays as it is.
        if b.sign != 0 {
            return true;
        }
    }
    let (a_sign, b_sign) = (a.sign as i8, b.sign as i8);
    let (low, sign) = if negated {
        let (low, borrow) = a.low.overflowing_sub(b.low);
        (low, a_sign - b_sign - i8::from(borrow))
    } else {
        let (low, carry) = a.low.overflowing_add(b.low);
        (low, a_sign + b_sign + i8::from(carry))
    };
    if matches!(sign, 0 | -1) {
        store_sum(first, sign, low);
        return true;
    }
    cold_path();
    // Odd: of any other two with such a sum neither low half is zero.
    if a.low == 0 {
        cold_path();
        return false;
    }
    if !negated && b.low == 0 {
        cold_path();
        return false;
    }
    store_beyond(first, sign, low);
    true
}

/// A sum beyond the short numbers has seventeen digits. The sign stands in place of the first; the others
/// are the low half, or what that is less than 65,536.
#[inline(always)]
fn store_beyond(first: &mut Slot, sign: i8, low: u16) {
    let digits = u32::from(low) << 15;
    let word = if sign < 0 {
        digits.wrapping_neg()
    } else {
        digits
    };
    first[0] = 128 + 17;
    store_word(first, word);
}

#[inline(always)]
fn sum<const EDITION: u8>(first: &mut Slot, second: &Slot, negated: bool) -> u8 {
    if EDITION == MENDED {
        return sum_mended(first, second, negated);
    }
    let (a, b) = match (first[0], second[0]) {
        (0, 0) => {
            let Some((a, b)) = Short::load_two(first, second) else {
                return MALFORMED;
            };
            if stored_short(first, a, b, negated) {
                return DONE;
            }
            cold_path();
            (short(a, false), short(b, negated))
        }
        (0, _) => {
            let Some(a) = Short::load(first) else {
                return MALFORMED;
            };
            (short(a, false), full(second, negated))
        }
        (_, 0) => {
            let Some(b) = Short::load(second) else {
                return MALFORMED;
            };
            (full(first, false), short(b, negated))
        }
        _ => (full(first, false), full(second, negated)),
    };
    total(first, a, b)
}

/// `None` where the mended edition refuses it.
#[inline(always)]
fn short_mended(x: &Slot, negated: bool) -> Option<Term> {
    let x = Short::load(x)?;
    if x.normal().is_none() {
        return (x.sign == 0).then(Term::default);
    }
    Some(short(x, negated))
}

/// One question for each short operand and one for their sum, since what is malformed, odd or too
/// large is beyond one range.
#[inline(always)]
fn sum_mended(first: &mut Slot, second: &Slot, negated: bool) -> u8 {
    let (a, b) = match (first[0], second[0]) {
        (0, 0) => {
            let (a, b) = (spread(first), spread(second));
            if !is_spread_operand(a) || !is_spread_operand(b) {
                cold_path();
                return MALFORMED;
            }
            // The borrow goes through the gap, and so does the carry where it is filled.
            let sum = if negated {
                a.wrapping_sub(b)
            } else {
                a.wrapping_add(b).wrapping_add(GAP)
            } & !GAP;
            if is_spread_operand(sum) {
                store_spread(first, sum);
                return DONE;
            }
            cold_path();
            if sum == spread(&ODD) {
                *first = MINUS_65536;
                return DONE;
            }
            let sum = Short::of_spread(sum);
            store_beyond(first, sum.sign as i8, sum.low);
            return DONE;
        }
        (0, _) => {
            let Some(a) = short_mended(first, false) else {
                return MALFORMED;
            };
            (a, full(second, negated))
        }
        (_, 0) => {
            let Some(b) = short_mended(second, negated) else {
                return MALFORMED;
            };
            (full(first, false), b)
        }
        _ => (full(first, false), full(second, negated)),
    };
    total(first, a, b)
}

/// The full route.
#[inline(always)]
fn total(first: &mut Slot, a: Term, b: Term) -> u8 {
    let (large, small) = if a.exponent >= b.exponent {
        (a, b)
    } else {
        (b, a)
    };
    // To the nearest, halves up. From 33 places on that is 0 for any mantissa.
    let mut places = large.exponent - small.exponent;
    if places > 63 {
        cold_path();
        places = 63;
    }
    let sum = large.mantissa + ((((small.mantissa << 1) >> places) + 1) >> 1);
    if sum == 0 {
        cold_path();
        *first = ZERO;
        return DONE;
    }
    let magnitude = sum.unsigned_abs();
    // What is carried has its top bit set, and needs no count. It is laid out of the way of what is not.
    if magnitude & 1 << 32 != 0 {
        cold_path();
        if large.exponent == 255 {
            cold_path();
            return TOO_BIG;
        }
        // A half goes up: to the larger magnitude where there is no sign, to the smaller where there is.
        let sign = sum >> 63;
        let half = magnitude.wrapping_add(1).wrapping_add_signed(sign) >> 1;
        first[0] = large.exponent as u8 + 1;
        store_word(first, signed(half as u32, sign as i32));
        return DONE;
    }
    let magnitude = magnitude as u32;
    let zeros = magnitude.leading_zeros();
    let exponent = large.exponent - zeros as i32;
    if exponent <= 0 {
        cold_path();
        return least(first, exponent, (sum >> 32) as i32);
    }
    first[0] = exponent as u8;
    store_word(first, signed(magnitude << zeros, (sum >> 32) as i32));
    DONE
}
