//! A number's forms, read from its slot and written to it, and the literals that change no
//! more than the form or the sign. A literal works in place and answers the report.

use super::MENDED;
use crate::reference::{DONE, MALFORMED};
use std::hint::cold_path;

pub type Slot = [u8; 5];

pub const SIGN: u32 = 0x8000_0000;
pub const ZERO: Slot = [0; 5];
pub const ODD: Slot = [0, 0xFF, 0, 0, 0];
/// -65,536 as a full number, which the mended edition writes in place of odd.
pub const MINUS_65536: Slot = [0x91, 0x80, 0, 0, 0];

/// b2 to b5 as they lie in memory, b2 lowest.
#[inline(always)]
pub fn bits(x: &Slot) -> u32 {
    u32::from_le_bytes(*x.last_chunk().unwrap())
}

#[inline(always)]
pub fn store_bits(x: &mut Slot, bits: u32) {
    *x.last_chunk_mut().unwrap() = bits.to_le_bytes();
}

/// b2 to b5 with b2 highest, so that the sign of a full number is on top.
#[inline(always)]
pub fn word(x: &Slot) -> u32 {
    bits(x).swap_bytes()
}

#[inline(always)]
pub fn store_word(x: &mut Slot, word: u32) {
    store_bits(x, word.swap_bytes());
}

/// A mantissa with its top bit, in place of which comes the sign of `number`.
#[inline(always)]
pub fn signed(mantissa: u32, number: i32) -> u32 {
    mantissa & ((number >> 31) as u32 | !SIGN)
}

/// b2 to b5 of a value from -65,536, which is odd, to 65,535; 65,536 comes out as zero.
#[inline(always)]
pub fn store_value(x: &mut Slot, value: i32) {
    store_bits(x, (value as u32).rotate_left(8) & 0x00FF_FFFF);
}

/// b2, b3 and b4 of a short sum. The fifth byte is left, and nothing is read to leave it.
#[inline(always)]
pub fn store_sum(x: &mut Slot, sign: i8, low: u16) {
    x[1] = sign as u8;
    [x[2], x[3]] = low.to_le_bytes();
}

/// Whether the mended edition takes b2 to b5, b2 highest, after a b1 of 0: b2 is 00, or it is FF and
/// b3 or b4 is not zero. That is one range of the word.
#[inline(always)]
pub fn is_operand(word: u32) -> bool {
    word.wrapping_add(0x00FF_FF00) < 0x01FF_FF00
}

/// Where b1 stands in what is spread.
pub const GAP: u32 = 0x00FF_0000;

/// b2, b1, and the low half, b2 highest: where b1 is 0, a short number's sign and its low half with a
/// gap between.
#[inline(always)]
pub fn spread(x: &Slot) -> u32 {
    u32::from_le_bytes(*x.first_chunk().unwrap()).rotate_left(16)
}

/// b1 to b4. The fifth byte is left.
#[inline(always)]
pub fn store_spread(x: &mut Slot, spread: u32) {
    *x.first_chunk_mut().unwrap() = spread.rotate_left(16).to_le_bytes();
}

/// Whether the mended edition takes it, where the gap is empty: one range of it too.
#[inline(always)]
pub fn is_spread_operand(spread: u32) -> bool {
    spread.wrapping_add(0x00FF_FFFF) < 0x0100_FFFF
}

/// What a number is whose b1 is 0: its sign, 0 or -1, and its low half.
#[derive(Clone, Copy)]
pub struct Short {
    pub sign: i64,
    pub low: u16,
}

impl Short {
    /// `None` where it is malformed.
    #[inline(always)]
    pub fn load(x: &Slot) -> Option<Short> {
        let sign = x[1] as i8;
        if sign != 0 && sign != -1 {
            cold_path();
            return None;
        }
        Some(Short::well_formed(x))
    }

    /// `None` where the edition refuses it. In the mended one that is a range of its value, which
    /// is made anyhow: odd is -65,536, and what is malformed is below that or over 65,535.
    #[inline(always)]
    pub fn load_operand<const EDITION: u8>(x: &Slot) -> Option<Short> {
        if EDITION != MENDED {
            return Short::load(x);
        }
        let short = Short::well_formed(x);
        if !(-65_535..=65_535).contains(&short.value()) {
            cold_path();
            return None;
        }
        Some(short)
    }

    /// The same of two, with one question for both.
    #[inline(always)]
    pub fn load_two(x: &Slot, y: &Slot) -> Option<(Short, Short)> {
        if (x[1].wrapping_add(1) | y[1].wrapping_add(1)) > 1 {
            cold_path();
            return None;
        }
        Some((Short::well_formed(x), Short::well_formed(y)))
    }

    #[inline(always)]
    pub fn of_spread(spread: u32) -> Short {
        Short {
            sign: (spread as i32 >> 24).into(),
            low: spread as u16,
        }
    }

    #[inline(always)]
    fn well_formed(x: &Slot) -> Short {
        Short {
            sign: (x[1] as i8).into(),
            low: u16::from_le_bytes([x[2], x[3]]),
        }
    }

    /// Odd is -65,536.
    #[inline(always)]
    pub fn value(self) -> i32 {
        (self.sign as i32) << 16 | i32::from(self.low)
    }

    #[inline(always)]
    pub fn is_odd(self) -> bool {
        self.value() == -65_536
    }

    /// Whether what counts as zero is refused as an operand: where it has a sign it is odd. Asked
    /// there alone, it costs a number that is not zero nothing.
    #[inline(always)]
    pub fn zero_is_refused<const EDITION: u8>(self) -> bool {
        EDITION == MENDED && self.sign != 0
    }

    /// Without the sign; 0 for odd, which counts as zero.
    #[inline(always)]
    pub fn magnitude(self) -> u32 {
        let flip = self.sign as i32;
        ((i32::from(self.low) ^ flip) - flip) as u32 & 0xFFFF
    }

    /// The exponent and the mantissa; `None` for zero and odd, which count as zero.
    #[inline(always)]
    pub fn normal(self) -> Option<(i32, u32)> {
        let magnitude = self.magnitude();
        if magnitude == 0 {
            cold_path();
            return None;
        }
        let zeros = magnitude.leading_zeros();
        Some((160 - zeros as i32, magnitude << zeros))
    }
}

/// The ending of a number too small for its exponent byte.
#[inline(always)]
pub fn least(x: &mut Slot, exponent: i32, sign: i32) -> u8 {
    *x = ZERO;
    if exponent == 0 {
        x[0] = 1;
        store_word(x, sign as u32 & SIGN);
    }
    DONE
}

#[inline(always)]
pub fn re_stack<const EDITION: u8>(x: &mut Slot) -> u8 {
    if x[0] != 0 {
        return DONE;
    }
    let Some(short) = Short::load(x) else {
        return MALFORMED;
    };
    let Some((exponent, mantissa)) = short.normal() else {
        if short.zero_is_refused::<EDITION>() {
            return MALFORMED;
        }
        *x = ZERO;
        return DONE;
    };
    x[0] = exponent as u8;
    store_word(x, signed(mantissa, short.sign as i32));
    DONE
}

#[inline(always)]
pub fn negate<const EDITION: u8>(x: &mut Slot) -> u8 {
    if x[0] != 0 {
        store_bits(x, bits(x) ^ 0x80);
        return DONE;
    }
    let Some(short) = Short::load_operand::<EDITION>(x) else {
        return MALFORMED;
    };
    // Zero keeps its fifth byte.
    if short.value() != 0 {
        store_value(x, -short.value());
    }
    DONE
}
