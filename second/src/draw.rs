//! Numbers, stacks and literals drawn so that interesting things happen often.

pub mod minus_65536;
pub mod near;

use crate::reference::literals::{self, ALL};
use crate::reference::number::re_stack;
use crate::rng::Rng;
use crate::Bytes;

/// Exponent bytes at which a rule changes, and their neighbours.
pub const EXPONENTS: [u8; 22] = [
    1, 2, 3, 31, 32, 33, 127, 128, 129, 130, 143, 144, 145, 146, 158, 159, 160, 161, 224, 253, 254,
    255,
];

/// Words b2 to b5 with long runs of equal digits, sign aside.
pub const WORDS: [u32; 12] = [
    0x0000_0000,
    0x0000_0001,
    0x0000_8000,
    0x0001_0000,
    0x007F_FFFF,
    0x2AAA_AAAA,
    0x4000_0000,
    0x4CCC_CCCC,
    0x5555_5555,
    0x7FFF_0000,
    0x7FFF_FFFE,
    0x7FFF_FFFF,
];

pub fn number(exponent: u8, word: u32) -> Bytes {
    let [b2, b3, b4, b5] = word.to_be_bytes();
    [exponent, b2, b3, b4, b5]
}

/// A short number with a chosen fifth byte; -65,536 gives odd.
pub fn short(value: i32, b5: u8) -> Bytes {
    let sign = if value < 0 { 0xFF } else { 0 };
    [0, sign, value as u8, (value >> 8) as u8, b5]
}

fn word(rng: &mut Rng) -> u32 {
    let sign = rng.word() & 0x8000_0000;
    sign ^ match rng.below(6) {
        0 => rng.pick(&WORDS),
        1 => rng
            .pick(&WORDS)
            .wrapping_add(rng.below(5) as u32)
            .wrapping_sub(2),
        2 => rng.word() << rng.below(32),
        3 => rng.word() >> rng.below(32),
        _ => rng.word(),
    }
}

/// A number of 0 to 32 binary digits, one length as often as another.
pub fn of_any_length(rng: &mut Rng) -> u32 {
    (u64::from(rng.word()) >> rng.below(33)) as u32
}

fn exponent(rng: &mut Rng) -> u8 {
    match rng.below(4) {
        0 => rng.pick(&EXPONENTS),
        1 => 126 + rng.below(38) as u8,
        _ => rng.byte().max(1),
    }
}

fn small_value(rng: &mut Rng) -> i32 {
    let magnitude = match rng.below(4) {
        0 => rng.below(4),
        1 => 65_535 - rng.below(4),
        2 => 1 << rng.below(16),
        _ => rng.below(65_536),
    } as i32;
    if rng.one_in(2) {
        -magnitude
    } else {
        magnitude
    }
}

/// The fifth byte of a short number: often zero.
pub fn fifth(rng: &mut Rng) -> u8 {
    if rng.one_in(3) {
        rng.byte()
    } else {
        0
    }
}

pub fn well_formed(rng: &mut Rng) -> Bytes {
    match rng.below(16) {
        0 => [0, 0xFF, 0, 0, fifth(rng)],
        1 => [0, 0, 0, 0, fifth(rng)],
        2..=5 => short(small_value(rng), fifth(rng)),
        _ => number(exponent(rng), word(rng)),
    }
}

pub fn malformed(rng: &mut Rng) -> Bytes {
    let b2 = match rng.below(4) {
        0 => rng.pick(&[0x01, 0x7F, 0x80, 0xFE]),
        _ => 1 + rng.below(254) as u8,
    };
    let [_, _, b3, b4, b5] = number(0, rng.word());
    [0, b2, b3, b4, b5]
}

pub fn any(rng: &mut Rng) -> Bytes {
    match rng.below(24) {
        0 => malformed(rng),
        1 => number(rng.byte(), rng.word()),
        _ => well_formed(rng),
    }
}

/// A number near another: exponents at most 34 apart, a mantissa that is the same, or one
/// off, or its complement.
pub fn beside(rng: &mut Rng, x: Bytes) -> Bytes {
    if x[0] == 0 || rng.one_in(3) {
        return any(rng);
    }
    let near = match rng.below(3) {
        0 => 0,
        1 => rng.below(5) as i32 - 2,
        _ => rng.below(69) as i32 - 34,
    };
    let exponent = (i32::from(x[0]) + near).clamp(1, 255) as u8;
    let own = u32::from_be_bytes([x[1], x[2], x[3], x[4]]);
    let close = match rng.below(5) {
        0 => own,
        1 => own.wrapping_add(rng.below(7) as u32).wrapping_sub(3),
        2 => !own,
        _ => word(rng),
    };
    number(exponent, close ^ (rng.word() & 0x8000_0000))
}

/// A number whose product with another is at an edge of A1's rules: whole numbers about 65,536,
/// exponent bytes that add up to about 128, where a product is too small, or 384, where it is
/// too big, and a mantissa's product about 2^63 or a half over.
pub fn factor(rng: &mut Rng, x: Bytes) -> Bytes {
    if literals::malformed(x) || re_stack(x)[0] == 0 {
        return any(rng);
    }
    if x[0] == 0 && !rng.one_in(4) {
        return short_factor(rng, x);
    }
    let [exponent, b2, b3, b4, b5] = re_stack(x);
    let sum = match rng.below(3) {
        0 => 126 + rng.below(6),
        1 => 381 + rng.below(6),
        // The one that the other's exponent byte can reach.
        _ if exponent < 128 => 128 + rng.below(2),
        _ => 383 + rng.below(2),
    };
    let other = (sum as i32 - i32::from(exponent)).clamp(1, 255);
    let mantissa = u32::from_be_bytes([b2, b3, b4, b5]) | 0x8000_0000;
    let word = match rng.below(5) {
        0 => quotient(rng, 1 << 63, mantissa),
        1 => quotient(rng, (1 << 63) - (1 << 30), mantissa),
        2 => half(rng, mantissa),
        3 => rng.pick(&[0, 1, 0x7FFF_FFFE, 0x7FFF_FFFF]),
        _ => word(rng),
    };
    number(other as u8, word & 0x7FFF_FFFF | rng.word() & 0x8000_0000)
}

/// A short number whose product with another has a magnitude of about 65,536.
fn short_factor(rng: &mut Rng, x: Bytes) -> Bytes {
    let low_half = i32::from(x[2]) + 256 * i32::from(x[3]);
    let magnitude = if x[1] == 0 {
        low_half
    } else {
        65_536 - low_half
    };
    let near = (65_536 / magnitude + rng.below(4) as i32 - 2).clamp(0, 65_535);
    short(if rng.one_in(2) { -near } else { near }, fifth(rng))
}

/// About `product` by a mantissa.
fn quotient(rng: &mut Rng, product: u64, mantissa: u32) -> u32 {
    (product / u64::from(mantissa) + rng.below(4) - 1).min(0xFFFF_FFFF) as u32
}

/// A mantissa whose product with another has 30 or 31 zeros at its end, and a one before them.
fn half(rng: &mut Rng, mantissa: u32) -> u32 {
    let zeros = 30 + rng.below(2) as u32;
    (rng.word() | 1) << zeros.saturating_sub(mantissa.trailing_zeros())
}

/// So many slots, neighbours near one another or of a product at an edge, and up to four stray
/// bytes.
pub fn stack(rng: &mut Rng, slots: usize) -> Vec<u8> {
    let mut bytes = Vec::with_capacity(5 * slots + 4);
    let mut last = any(rng);
    for _ in 0..slots {
        bytes.extend(last);
        last = match rng.below(4) {
            0 => factor(rng, last),
            _ => beside(rng, last),
        };
    }
    for _ in 0..rng.below(5) {
        bytes.push(rng.byte());
    }
    bytes
}

/// Mostly within the stack, sometimes just over it, sometimes far beyond any product by 5.
pub fn depth(rng: &mut Rng, slots: usize) -> usize {
    match rng.below(40) {
        0 => slots + 1,
        1 => slots + rng.below(20) as usize,
        2 => rng.pick(&[
            usize::MAX,
            usize::MAX / 5,
            usize::MAX / 5 + 1,
            usize::MAX / 5 + 2,
            usize::MAX / 5 * 2 + 2,
            1 << 63,
            1 << 32,
            3_200,
            3_201,
        ]),
        3..=14 => slots,
        15..=31 => slots.saturating_sub(1 + rng.below(2) as usize),
        _ => rng.below(slots as u64 + 1) as usize,
    }
}

pub fn literal(rng: &mut Rng) -> u8 {
    if rng.one_in(50) {
        rng.byte()
    } else {
        rng.pick(&ALL)
    }
}

/// A list that duplicates often enough for the stack to last some time.
pub fn literals(rng: &mut Rng, count: usize) -> Vec<u8> {
    let often = [49, 49, 49, 1, 27, 39, 58, 61];
    (0..count)
        .map(|_| {
            if rng.one_in(3) {
                rng.pick(&often)
            } else if rng.one_in(150) {
                rng.byte()
            } else {
                rng.pick(&ALL)
            }
        })
        .collect()
}
