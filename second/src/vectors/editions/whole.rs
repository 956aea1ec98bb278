//! Truncation at exponent byte 145, and int, which truncates and subtracts as its edition does.

use super::{in_both, known, Vectors, MENDED, MINUS_65536, ODD};
use crate::draw::{number, WORDS};
use crate::reference::literals::{INT, TRUNCATE};

pub fn cases(v: &mut Vectors) {
    by_hand(v);
    v.reason("A3: around -65536 at exponent byte 145, in both editions");
    for b2 in [0x80, 0x81, 0xFF, 0x00, 0x01] {
        for b3 in [0, 1, 0x80] {
            for b4 in [0, 1, 0x7F, 0x80, 0xFF] {
                for b5 in [0, 0xFF] {
                    for literal in [TRUNCATE, INT] {
                        in_both(v, literal, &[[0x91, b2, b3, b4, b5]]);
                    }
                }
            }
        }
    }
    v.reason("A3: its neighbours, exponent bytes 143 to 147, in both editions");
    for exponent in 143..=147 {
        for word in WORDS {
            for literal in [TRUNCATE, INT] {
                in_both(v, literal, &[number(exponent, word | 0x8000_0000)]);
            }
            v.operate_in(MENDED, INT, &[number(exponent, word)]);
        }
    }
    v.reason("A3: every exponent byte in the mended edition");
    for exponent in 1..=255 {
        v.operate_in(MENDED, TRUNCATE, &[number(exponent, 0x8000_0000)]);
        v.operate_in(MENDED, INT, &[number(exponent, 0xFFFF_FFFF)]);
    }
}

fn by_hand(v: &mut Vectors) {
    v.reason("A3: truncation clears bits at 145, and int subtracts in its own edition");
    let minus_one = [0x81, 0x80, 0, 0, 0];
    let one_lower = [0x91, 0x80, 0, 0x80, 0];
    for (b4, b5) in [(0, 1), (0x40, 0), (0x7F, 0xFF)] {
        let x = [0x91, 0x80, 0, b4, b5];
        known(v, TRUNCATE, &[x], [Ok(ODD), Ok(MINUS_65536)]);
        known(v, INT, &[x], [Ok(minus_one), Ok(one_lower)]);
    }
    known(v, TRUNCATE, &[MINUS_65536], [Ok(ODD), Ok(MINUS_65536)]);
    known(v, INT, &[MINUS_65536], [Ok(minus_one), Ok(MINUS_65536)]);
    for (b4, b5) in [(0, 1), (0x80, 0), (0xFF, 0xFF)] {
        let x = [0x90, 0xFF, 0xFF, b4, b5];
        known(v, INT, &[x], [Ok(ODD), Ok(MINUS_65536)]);
        known(v, TRUNCATE, &[x], [Ok([0, 0xFF, 1, 0, 0]); 2]);
    }
    known(v, INT, &[one_lower], [Ok(one_lower); 2]);
    known(v, TRUNCATE, &[one_lower], [Ok(one_lower); 2]);
}
