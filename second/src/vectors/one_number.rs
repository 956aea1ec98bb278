//! Negate, int, truncate and re-stack over every exponent byte and every form.

use super::{edge_numbers, Vectors};
use crate::draw::{number, short, WORDS};
use crate::reference::literals::{DELETE, DUPLICATE, EXCHANGE, INT, NEGATE, RE_STACK, TRUNCATE};

const ONE_NUMBER: [u8; 4] = [NEGATE, INT, TRUNCATE, RE_STACK];

pub fn cases(v: &mut Vectors) {
    v.reason("every exponent byte with the smallest, a middling and the largest mantissa");
    for exponent in 1..=255 {
        for word in [0x0000_0000, 0x8000_0000, 0x5555_AAAA, 0xFFFF_FFFF] {
            for literal in [INT, TRUNCATE] {
                v.operate(literal, &[number(exponent, word)]);
            }
        }
        v.operate(NEGATE, &[number(exponent, 0x8123_4567)]);
        v.operate(RE_STACK, &[number(exponent, 0x7654_3210)]);
    }
    whole_parts(v);
    minus_65536(v);
    short_numbers(v);
    second_bytes(v);
    v.reason("numbers at the edges of the rules under each literal that takes one");
    for x in edge_numbers() {
        for literal in [NEGATE, INT, TRUNCATE, RE_STACK, DELETE, DUPLICATE] {
            v.operate(literal, &[x]);
        }
    }
    v.reason("exchange, with b5, odd and malformed numbers: it does not look at a form");
    for x in edge_numbers() {
        v.operate(EXCHANGE, &[x, [0, 0x12, 0x34, 0x56, 0x78]]);
        v.operate(EXCHANGE, &[[0x80, 0, 0, 0, 1], x]);
    }
}

/// The last digit before the point and the first after it, at every place of the point.
fn whole_parts(v: &mut Vectors) {
    v.reason("int and truncate where the point is: whole, one half over, one digit short");
    for exponent in 128..=161u8 {
        let fraction_digits = 160 - i32::from(exponent);
        let unit = 1u32.checked_shl(fraction_digits.max(0) as u32).unwrap_or(0);
        let half = unit >> 1;
        let all_ones = u32::MAX >> 1;
        let words = [
            unit,
            half,
            unit | half,
            unit.wrapping_sub(1),
            all_ones & !unit.wrapping_sub(1),
            all_ones ^ half,
        ];
        for word in words {
            for sign in [0, 0x8000_0000] {
                for literal in [INT, TRUNCATE] {
                    v.operate(literal, &[number(exponent, word & all_ones | sign)]);
                }
            }
        }
    }
}

fn minus_65536(v: &mut Vectors) {
    v.reason("around -65536 at exponent 145: which of b2, b3, b4 keep it from coming out odd");
    for b2 in [0x80, 0x81, 0xC0, 0xFF, 0x00, 0x01] {
        for b3 in [0, 1, 0x80] {
            for b4 in [0, 1, 0x7F, 0x80, 0xFF] {
                for b5 in [0, 0xFF] {
                    v.operate(TRUNCATE, &[[0x91, b2, b3, b4, b5]]);
                    v.operate(INT, &[[0x91, b2, b3, b4, b5]]);
                }
            }
        }
    }
    v.reason("the same bytes one exponent lower and higher");
    for exponent in [0x90, 0x92] {
        for b4 in [0, 0x7F, 0x80] {
            v.operate(TRUNCATE, &[[exponent, 0x80, 0, b4, 0]]);
            v.operate(INT, &[[exponent, 0x80, 0, b4, 0]]);
        }
    }
}

fn short_numbers(v: &mut Vectors) {
    v.reason("short numbers, with and without a fifth byte; b5 stays in int and truncate");
    for value in [0, 1, 2, 10, 127, 128, 255, 256, 257, 1000, 4095, 4096] {
        short_number(v, value);
    }
    for value in [32_767, 32_768, 32_769, 65_280, 65_534, 65_535] {
        short_number(v, value);
    }
    v.reason("each single binary digit of a short number re-stacked, on either sign");
    for digit in 0..16 {
        for below in [0, 1] {
            v.operate(RE_STACK, &[short((1 << digit) - below, 0x77)]);
            v.operate(RE_STACK, &[short(below - (1 << digit), 0x77)]);
        }
    }
    v.reason("odd, with and without a fifth byte");
    for b5 in [0, 1, 0x80, 0xFF] {
        for literal in ONE_NUMBER {
            v.operate(literal, &[[0, 0xFF, 0, 0, b5]]);
        }
    }
}

fn short_number(v: &mut Vectors, value: i32) {
    for value in [value, -value] {
        for b5 in [0, 0x9B] {
            for literal in ONE_NUMBER {
                v.operate(literal, &[short(value, b5)]);
            }
        }
    }
}

fn second_bytes(v: &mut Vectors) {
    v.reason("b1 zero and every second byte: only 00 and FF are well formed");
    for b2 in 0..=255 {
        v.operate(ONE_NUMBER[usize::from(b2) % 4], &[[0, b2, 0, 0, 0]]);
        v.operate(ONE_NUMBER[usize::from(b2 / 4) % 4], &[[0, b2, 1, 2, 3]]);
    }
    v.reason("mantissas with long runs of equal digits");
    for word in WORDS {
        for exponent in [0x01, 0x80, 0x88, 0x90, 0x91, 0x98, 0x9F, 0xA0, 0xFF] {
            v.operate(INT, &[number(exponent, word | 0x8000_0000)]);
        }
    }
}
