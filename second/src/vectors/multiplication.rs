//! Multiplication: whole products about 65,536, the digits of the product of two mantissas, and
//! the exponents at both ends.

use super::{edge_numbers, Vectors};
use crate::draw::{number, short, WORDS};
use crate::reference::literals::MULTIPLY;
use crate::Bytes;

const SIGN: u32 = 0x8000_0000;

/// Mantissas, by what their product P is.
#[rustfmt::skip]
const PAIRS: [(u32, u32); 29] = [
    // 2^62, the least; a little more; the greatest below 2^63 that needs no rounding
    (0x8000_0000, 0x8000_0000), (0x8000_0000, 0x8000_0001), (0x8000_0001, 0x8000_0001),
    (0x8000_0000, 0xFFFF_FFFF),
    // the greatest, and the next
    (0xFFFF_FFFF, 0xFFFF_FFFF), (0xFFFF_FFFE, 0xFFFF_FFFF), (0xFFFF_FFFE, 0xFFFF_FFFE),
    // 2^63 - 8, - 2, - 1, and + 2: nothing nearer to 2^63 is a product, nor 2^63 itself
    (0x8000_0002, 0xFFFF_FFFC), (0x8000_0001, 0xFFFF_FFFE), (0x87FB_C059, 0xF0F8_7817),
    (0x8001_0001, 0xFFFE_0002),
    // 2^63 + 2^31 - 1, which is just not rounded up, and 2^63 - 2^31 - 3
    (0x8000_0001, 0xFFFF_FFFF), (0x8000_0001, 0xFFFF_FFFD),
    // 2^63 - 2^30, a half that is carried to 2^32, and the nearest on either side: - 7 and + 6
    (0x9249_2492, 0xE000_0000), (0x8010_0200, 0xFFE0_0000),
    (0xAAAA_AAAD, 0xBFFF_FFFD), (0x9F7A_EEA6, 0xCD77_AE91),
    // halves with an even and an odd digit before them, P over 2^31
    (0xC000_0000, 0x8000_0001), (0xC000_0000, 0x8000_0003),
    (0x8000_8000, 0xC000_8000), (0x8001_8000, 0xC000_8000),
    // and over 2^32
    (0xC000_0000, 0xC000_0002), (0xC000_0000, 0xC000_0006),
    (0xC001_0000, 0xC000_8000), (0xC001_0000, 0xC001_8000),
    // the last digit of P less than a half, and more, over 2^31 and over 2^32
    (0xC000_000F, 0x9111_1111), (0xC000_0001, 0x8000_0001),
    (0xC000_001B, 0xD7B4_25ED), (0xC000_0001, 0xC000_0001),
];

/// On all signs; where those agree, in both orders.
fn all_ways(v: &mut Vectors, first: Bytes, second: Bytes) {
    let [a, b] = [first, second].map(|x| [x, negated(x)]);
    for (i, j) in [(0, 0), (0, 1), (1, 0), (1, 1)] {
        v.operate(MULTIPLY, &[a[i], b[j]]);
        if i == j {
            v.operate(MULTIPLY, &[b[j], a[i]]);
        }
    }
}

/// The same magnitude on the other sign; b5 is kept.
fn negated(x: Bytes) -> Bytes {
    if x[0] != 0 {
        return [x[0], x[1] ^ 0x80, x[2], x[3], x[4]];
    }
    short(-(i32::from(x[2]) + 256 * i32::from(x[3])), x[4])
}

pub fn cases(v: &mut Vectors) {
    whole_products(v);
    exponents(v);
    digits(v);
    forms(v);
}

fn whole_products(v: &mut Vectors) {
    v.reason("whole products about 65,535 and 65,536, on all signs, with b5 and without");
    for a in [
        1, 2, 3, 4, 5, 7, 15, 16, 17, 31, 51, 62, 85, 127, 128, 151, 241, 254, 255, 256,
    ] {
        for near in -1..=2 {
            let b = 65_535 / a + near;
            if b <= 65_535 {
                all_ways(v, short(a, 0), short(b, 0));
                v.operate(MULTIPLY, &[short(-a, 0xC3), short(b, 0x3C)]);
            }
        }
    }
    v.reason("whole numbers at the edges of their form by one another: short, or 17 to 32 digits");
    let values = [0, 1, 2, 3, 255, 256, 257, 32_767, 32_768, 65_534, 65_535];
    for a in values {
        for b in values {
            v.operate(MULTIPLY, &[short(a, 0), short(-b, 0)]);
            v.operate(MULTIPLY, &[short(-a, 0x5A), short(-b, 0xA5)]);
        }
    }
    v.reason("squares of whole numbers");
    for digit in 0..16 {
        for near in [-1, 0, 1] {
            let x = short((1 << digit) + near, 0);
            v.operate(MULTIPLY, &[x, x]);
        }
    }
}

/// E is the sum of the exponent bytes less 128 or 129: every edge of it with every pair.
fn exponents(v: &mut Vectors) {
    for sum in [
        127, 128, 129, 130, 131, 255, 256, 257, 382, 383, 384, 385, 386,
    ] {
        v.reason(&format!(
            "exponent bytes that add up to {sum}, on all signs"
        ));
        for (i, (m, n)) in PAIRS.into_iter().enumerate() {
            // From one end to the other, a step a pair.
            let (least, most) = ((sum - 255).max(1), (sum - 1).min(255));
            let first = least + (most - least) * i as i32 / (PAIRS.len() as i32 - 1);
            let a = number(first as u8, m & !SIGN);
            let b = number((sum - first) as u8, n & !SIGN);
            all_ways(v, a, b);
        }
    }
    v.reason("every exponent byte: by itself, by one, by a tenth, by the short -3");
    for exponent in 1..=255 {
        let x = number(exponent, 0x3579_BDF1);
        v.operate(MULTIPLY, &[x, x]);
        v.operate(MULTIPLY, &[x, number(0x81, SIGN)]);
        v.operate(MULTIPLY, &[number(0x7D, 0x4CCC_CCCC), x]);
        v.operate(MULTIPLY, &[x, short(-3, 0)]);
    }
    v.reason("a short number by a full one, where the exponents come out about 0 and about 255");
    for value in [1, 2, 3, 255, 256, 40_503, 65_535] {
        let digits = 32 - (value as u32).leading_zeros() as i32;
        for sum in [128, 129, 130, 383, 384, 385] {
            let exponent = sum - 128 - digits;
            if (1..=255).contains(&exponent) {
                for word in [0, 0x2AAA_AAAA, 0x7FFF_FFFF] {
                    let full = number(exponent as u8, word);
                    v.operate(MULTIPLY, &[short(value, 0), full]);
                    v.operate(MULTIPLY, &[full, short(-value, 0x77)]);
                }
            }
        }
    }
}

fn digits(v: &mut Vectors) {
    v.reason("mantissas with long runs of equal digits by one another");
    for m in WORDS {
        for n in WORDS {
            v.operate(MULTIPLY, &[number(0x85, m), number(0x83, n | SIGN)]);
            v.operate(MULTIPLY, &[number(0x01, m | SIGN), number(0x80, n ^ 1)]);
        }
    }
    v.reason("each digit of either mantissa by itself");
    for place in 0..31 {
        let word = 1 << place;
        v.operate(MULTIPLY, &[number(0x81, word), number(0x81, 0x7FFF_FFFF)]);
        v.operate(MULTIPLY, &[number(0x81, 0x7FFF_FFFF), number(0x81, word)]);
        v.operate(MULTIPLY, &[number(0x81, word), number(0x81, 1 << 30)]);
    }
    let edge = 1u64 << 63;
    for (words, product) in [("2^63", edge), ("2^63 - 2^30", edge - (1 << 30))] {
        v.reason(&format!(
            "the nearest products to {words} of a mantissa, where exponents add up to 128, 200 and 384"
        ));
        for m in 1..=40u64 {
            let m = 0x8000_0000 + m * 0x0321_4567;
            for near in 0..=2 {
                let n = product / m + near - 1;
                for (first, second) in [(100, 28), (100, 100), (200, 184)] {
                    let a = number(first, m as u32 & !SIGN);
                    let b = number(second, n as u32 & !SIGN | (n as u32) << 31);
                    v.operate(MULTIPLY, &[a, b]);
                }
            }
        }
    }
}

fn forms(v: &mut Vectors) {
    v.reason("every two numbers at the edges of the rules");
    for first in edge_numbers() {
        for second in edge_numbers() {
            v.operate(MULTIPLY, &[first, second]);
        }
    }
    v.reason("b1 zero and every second byte, in either place: only 00 and FF are well formed");
    for b2 in 0..=255 {
        v.operate(MULTIPLY, &[[0, b2, 1, 2, 3], short(2, 0)]);
        v.operate(MULTIPLY, &[number(0x82, 0x4000_0000), [0, b2, 1, 2, 3]]);
        v.operate(MULTIPLY, &[[0, b2, 0, 0, 0], number(0xFF, 0x7FFF_FFFF)]);
        v.operate(MULTIPLY, &[[0, 0, 0, 0, 9], [0, b2, 0, 0, 0]]);
    }
}
