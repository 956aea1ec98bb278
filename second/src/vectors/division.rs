//! Division: the digits of the quotient, and the exponents at both ends.

use super::{edge_numbers, Vectors};
use crate::draw::{number, short, WORDS};
use crate::reference::literals::DIVIDE;

const SIGN: u32 = 0x8000_0000;

pub fn cases(v: &mut Vectors) {
    exponents(v);
    digits(v);
    v.reason("one and ten over each small whole number, short: repeating digits");
    for n in 1..=400 {
        v.operate(DIVIDE, &[short(1, 0), short(n, 0)]);
        v.operate(DIVIDE, &[short(-10, 0), short(n, 0x44)]);
    }
    v.reason("every two numbers at the edges of the rules");
    for first in edge_numbers() {
        for second in edge_numbers() {
            v.operate(DIVIDE, &[first, second]);
        }
    }
    v.reason("a divisor that counts as zero is report 6 whatever the dividend is");
    for divisor in [
        [0, 0, 0, 0, 0],
        [0, 0, 0, 0, 9],
        [0, 0xFF, 0, 0, 0],
        [0, 0xFF, 0, 0, 9],
    ] {
        for dividend in edge_numbers() {
            v.operate(DIVIDE, &[dividend, divisor]);
        }
    }
}

/// The dividend's exponent less the divisor's, plus 129, about 0 and about 255, with a
/// quotient that needs a doubling (M below N) and ones that do not (equal, above).
fn exponents(v: &mut Vectors) {
    let mantissas = [
        (0x0000_0000, 0x4000_0000),
        (0x4000_0000, 0x4000_0000),
        (0x7FFF_FFFF, 0x0000_0000),
        (0x0000_0001, 0x7FFF_FFFF),
    ];
    for e in [
        -3, -2, -1, 0, 1, 2, 3, 128, 129, 253, 254, 255, 256, 257, 258,
    ] {
        v.reason(&format!("exponent {e} before any doubling of the quotient"));
        for dividend in [1, 2, 3, 64, 126, 127, 128, 129, 130, 192, 253, 254, 255] {
            let divisor = dividend - e + 129;
            if !(1..=255).contains(&divisor) {
                continue;
            }
            for (i, (m, n)) in mantissas.iter().enumerate() {
                let sign = if (dividend + i as i32) % 2 == 0 {
                    SIGN
                } else {
                    0
                };
                let first = number(dividend as u8, m | sign);
                v.operate(DIVIDE, &[first, number(divisor as u8, *n)]);
            }
        }
    }
    v.reason("one over, and over one, at every exponent byte");
    for exponent in 1..=255 {
        v.operate(DIVIDE, &[number(0x81, 0), number(exponent, 0x4000_0000)]);
        v.operate(DIVIDE, &[number(exponent, 0x4000_0000), number(0x81, SIGN)]);
        v.operate(DIVIDE, &[number(exponent, 0x1234_5678), short(3, 0)]);
    }
}

fn digits(v: &mut Vectors) {
    v.reason("mantissas with long runs of equal digits over one another");
    for m in WORDS {
        for n in WORDS {
            v.operate(DIVIDE, &[number(0x85, m), number(0x83, n | SIGN)]);
            v.operate(DIVIDE, &[number(0x83, m | SIGN), number(0x85, n ^ 1)]);
        }
    }
    v.reason("M and N next to one another, on both sides of a doubling");
    for n in [1, 2, 3, 0x1000_0000, 0x3FFF_FFFF, 0x5A5A_5A5A, 0x7FFF_FFFC] {
        for near in 0..=6u32 {
            let m = (n + near).saturating_sub(3);
            v.operate(DIVIDE, &[number(0x88, m), number(0x88, n)]);
        }
    }
    v.reason("a 33rd digit of 1 and of 0, a rest below and above half the divisor");
    for m in [0x0000_0000u32, 0x1999_9999, 0x7FFF_FFFF] {
        for n in 1..=80u32 {
            v.operate(
                DIVIDE,
                &[
                    number(0x90, m),
                    number(0x90, n.wrapping_mul(0x0123_4567) >> 1),
                ],
            );
        }
    }
}
