//! Addition and subtraction: both routes, every shift, cancellation, the largest exponent.

use super::{edge_numbers, Vectors};
use crate::draw::{number, short, WORDS};
use crate::reference::literals::{ADD, SUBTRACT};
use crate::Bytes;

const SIGN: u32 = 0x8000_0000;

fn both(v: &mut Vectors, first: Bytes, second: Bytes) {
    v.operate(ADD, &[first, second]);
    v.operate(SUBTRACT, &[first, second]);
}

pub fn cases(v: &mut Vectors) {
    shifts(v);
    cancellation(v);
    largest_exponent(v);
    smallest_exponents(v);
    short_route(v);
    v.reason("every two numbers at the edges of the rules, added and subtracted");
    for first in edge_numbers() {
        for second in edge_numbers() {
            both(v, first, second);
        }
    }
}

/// The digits shifted out are exactly a half, one less, one more, all ones, or none.
fn shifts(v: &mut Vectors) {
    for places in 0..=34u8 {
        v.reason(&format!(
            "a number shifted by {places}: halves, just under, just over, on either sign"
        ));
        let half = 1u32
            .checked_shl(u32::from(places) - u32::from(places > 0))
            .unwrap_or(0);
        let below = half.wrapping_sub(1);
        for word in [half, below, half | 1, u32::MAX, 0] {
            for (large_sign, small_sign) in [(0, 0), (0, SIGN), (SIGN, 0), (SIGN, SIGN)] {
                let large = number(0xA0, 0x1234_5678 | large_sign);
                let small = number(0xA0 - places, word & !SIGN | small_sign);
                v.operate(ADD, &[large, small]);
                v.operate(ADD, &[small, large]);
                if word == half {
                    v.operate(SUBTRACT, &[large, small]);
                    v.operate(SUBTRACT, &[small, large]);
                }
            }
        }
    }
    v.reason("minus one plus nearly one, and the like at every distance: halves go up");
    for places in 0..=34 {
        let least = number(0x81, SIGN);
        both(v, least, number(0x81 - places, 0x7FFF_FFFF));
        both(v, number(0x81 - places, 0xFFFF_FFFF), number(0x81, 0));
        both(v, number(0x81, 0), number(0x81 - places, SIGN));
    }
    v.reason("exponents far apart: the smaller number is nothing at all");
    for exponent in [1, 2, 0x40, 0x60, 0x80, 0xDE, 0xDF] {
        both(v, number(0xFF, 0x7FFF_FFFF), number(exponent, 0xFFFF_FFFF));
        both(v, number(exponent, SIGN), number(0xFF, SIGN));
    }
}

fn cancellation(v: &mut Vectors) {
    v.reason("cancellation that leaves one digit at each place, on either sign");
    for place in 0..31 {
        let word = 1u32 << place;
        for sign in [0, SIGN] {
            v.operate(ADD, &[number(0x90, word | sign), number(0x90, sign ^ SIGN)]);
            v.operate(SUBTRACT, &[number(0x90, sign), number(0x90, word | sign)]);
        }
    }
    v.reason("a number less itself, and less its neighbour");
    for word in WORDS {
        for exponent in [1, 2, 0x20, 0x21, 0x80, 0xFF] {
            let x = number(exponent, word);
            v.operate(SUBTRACT, &[x, x]);
            v.operate(SUBTRACT, &[x, number(exponent, word ^ 1)]);
            v.operate(ADD, &[x, number(exponent, word | SIGN)]);
        }
    }
}

fn largest_exponent(v: &mut Vectors) {
    v.reason("sums about 2^32 and -2^32 at the largest exponents: 256 is report 6");
    for exponent in [0x81, 0xFE, 0xFF] {
        for first in [0, 1, 0x3FFF_FFFF, 0x7FFF_FFFE, 0x7FFF_FFFF] {
            for second in [0, 1, 0x3FFF_FFFF, 0x7FFF_FFFE, 0x7FFF_FFFF] {
                for sign in [0, SIGN] {
                    let x = number(exponent, first | sign);
                    v.operate(ADD, &[x, number(exponent, second | sign)]);
                    v.operate(SUBTRACT, &[x, number(exponent - 1, second | sign ^ SIGN)]);
                    v.operate(ADD, &[number(exponent - 31, second | sign), x]);
                    v.operate(ADD, &[x, number(exponent - 32, second | sign)]);
                }
            }
        }
    }
}

/// The ending at e = 1, 0 and below: 01 with its sign at 0, zeros below.
fn smallest_exponents(v: &mut Vectors) {
    v.reason("sums whose exponent comes out at 2, 1, 0, -1: the smallest number and zero");
    for doublings in 1..=31u8 {
        let word = 1u32 << (31 - doublings);
        for over in [-1i32, 0, 1, 2] {
            let exponent = i32::from(doublings) + over;
            if exponent < 1 {
                continue;
            }
            for sign in [0, SIGN] {
                let large = number(exponent as u8, word | sign);
                v.operate(ADD, &[large, number(exponent as u8, sign ^ SIGN)]);
                v.operate(SUBTRACT, &[number(exponent as u8, sign), large]);
            }
        }
    }
}

fn short_route(v: &mut Vectors) {
    v.reason("short numbers about the ends of the short route; odd stands for -65536");
    let mut values = vec![-65_536];
    for value in [0, 1, 2, 255, 256, 32_767, 32_768, 65_534, 65_535] {
        values.push(value);
        values.push(-value);
    }
    for &first in &values {
        for &second in &values {
            both(v, short(first, 0), short(second, 0));
            v.operate(ADD, &[short(first, 0xC3), short(second, 0x3C)]);
        }
    }
    v.reason("two negative short numbers that make -65535, -65536 and -65537");
    for first in [1, 2, 536, 32_768, 65_000, 65_535] {
        for sum in [65_535, 65_536, 65_537] {
            if (1..=65_535).contains(&(sum - first)) {
                both(v, short(-first, 0), short(first - sum, 0x11));
                v.operate(SUBTRACT, &[short(-first, 0x22), short(sum - first, 0)]);
            }
        }
    }
}
