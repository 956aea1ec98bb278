//! A short sum of -65,536, and its neighbours.

use super::{in_both, known, Vectors, MENDED, MINUS_65536};
use crate::draw::{number, short};
use crate::reference::literals::{ADD, SUBTRACT};

/// Each of them once as the first number's and once as the second's.
const FIFTHS: [(u8, u8); 4] = [(0, 0xFF), (1, 0x80), (0x80, 0), (0xFF, 1)];

pub fn cases(v: &mut Vectors) {
    v.reason("A3: short sums of -65536 in both editions: all five bytes, whatever b5 was");
    for first in [
        1, 2, 255, 256, 536, 1_000, 32_767, 32_768, 64_536, 65_000, 65_535,
    ] {
        let rest = 65_536 - first;
        for (b5, other) in FIFTHS {
            let answers = [Ok([0, 0xFF, 0, 0, b5]), Ok(MINUS_65536)];
            known(v, ADD, &[short(-first, b5), short(-rest, other)], answers);
            known(
                v,
                SUBTRACT,
                &[short(-first, b5), short(rest, other)],
                answers,
            );
        }
    }
    v.reason("A3: short sums of -65535, which keep b5, and of -65537, by the full route");
    for first in [2, 256, 536, 32_768, 65_535] {
        for (b5, other) in FIFTHS {
            for rest in [65_535 - first, 65_537 - first] {
                in_both(v, ADD, &[short(-first, b5), short(-rest, other)]);
                in_both(v, SUBTRACT, &[short(-first, b5), short(rest, other)]);
            }
        }
    }
    v.reason("A3: short numbers about the ends of the short route, in the mended edition");
    let mut values = vec![];
    for value in [0, 1, 2, 256, 32_767, 32_768, 65_534, 65_535] {
        values.extend([value, -value]);
    }
    for &first in &values {
        for &second in &values {
            v.operate_in(MENDED, ADD, &[short(first, 0xC3), short(second, 0x3C)]);
            v.operate_in(MENDED, SUBTRACT, &[short(first, 0x3C), short(second, 0)]);
        }
    }
    v.reason("A3: sums of -65536 by the full route, the same in both editions");
    for (first, second) in [
        (MINUS_65536, short(0, 0x5A)),
        (short(0, 0x5A), MINUS_65536),
        (number(0x90, 0x8000_0000), short(-32_768, 9)),
        (short(-32_768, 9), number(0x90, 0x8000_0000)),
        (number(0x92, 0x8000_0000), number(0x91, 0)),
        (number(0x91, 0x8000_8000), short(1, 0)),
    ] {
        known(v, ADD, &[first, second], [Ok(MINUS_65536); 2]);
    }
    for (first, second) in [
        (short(-65_535, 1), number(0x81, 0)),
        (short(0, 7), short(0, 8)),
    ] {
        in_both(v, SUBTRACT, &[first, second]);
    }
    v.reason("A3: -65536, as the mended edition writes it, is used again");
    for value in [1, -1, 2, 65_535, -65_535] {
        for literal in [ADD, SUBTRACT] {
            in_both(v, literal, &[MINUS_65536, short(value, 0x77)]);
            in_both(v, literal, &[short(value, 0x77), MINUS_65536]);
        }
    }
}
