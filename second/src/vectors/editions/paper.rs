//! The papers' own sums in both editions. The shipped answers are those printed; those of the
//! mended one that differ are written here, by A3.

use super::super::paper::{Row, LISTINGS, PRODUCTS, SUMS};
use super::{known, Vectors, MINUS_65536};
use crate::Bytes;

/// A row's number from 0, and its answer in the mended edition.
type Differs = (usize, Result<Bytes, u8>);

/// A tenth, 2/3 and the largest quotient are rounded up; an odd operand is refused; -65,536 is
/// written in full, and is its own int.
const OF_SUMS: [Differs; 8] = [
    (0, Ok([0x7D, 0x4C, 0xCC, 0xCC, 0xCD])),
    (1, Ok([0x80, 0x2A, 0xAA, 0xAA, 0xAB])),
    (4, Ok([0xFF, 0x2A, 0xAA, 0xAA, 0xAB])),
    (8, Err(3)),
    (9, Ok(MINUS_65536)),
    (10, Err(3)),
    (15, Ok(MINUS_65536)),
    (16, Ok(MINUS_65536)),
];

/// 1/10 and 1/1000 are rounded up as they should be, -65,536 is all right if left alone, and what
/// was odd is refused.
const OF_LISTINGS: [Differs; 6] = [
    (0, Ok([0x7D, 0x4C, 0xCC, 0xCC, 0xCD])),
    (1, Ok([0x77, 0x03, 0x12, 0x6E, 0x98])),
    (5, Ok(MINUS_65536)),
    (6, Ok(MINUS_65536)),
    (7, Err(3)),
    (8, Ok(MINUS_65536)),
];

pub fn cases(v: &mut Vectors) {
    v.reason("A3: document 01's table of sums in both editions");
    rows(v, &SUMS, &OF_SUMS);
    v.reason("A3: A1's products in both editions, where they are the same");
    rows(v, &PRODUCTS, &[]);
    v.reason("A3: the listings' examples in both editions");
    rows(v, &LISTINGS, &OF_LISTINGS);
}

fn rows(v: &mut Vectors, rows: &[Row], mended: &[Differs]) {
    for (i, &(operands, literal, shipped)) in rows.iter().enumerate() {
        let differs = mended.iter().find(|(row, _)| *row == i);
        let answers = [shipped, differs.map_or(shipped, |&(_, answer)| answer)];
        for _ in 0..2 {
            known(v, literal, operands, answers);
        }
    }
}
