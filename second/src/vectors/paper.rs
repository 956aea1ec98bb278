//! Document 01's own sums and run, A1's products, and the listings' examples, with the answers
//! that those papers print: the reference is held to them here.

use super::Vectors;
use crate::case::{Call, Case};
use crate::reference::literals::{ADD, DIVIDE, INT, MULTIPLY, TRUNCATE};
use crate::{Bytes, ZERO};

const ODD: Bytes = [0, 0xFF, 0, 0, 0];

/// Operands, literal, and the result or the report.
pub(super) type Row = (&'static [Bytes], u8, Result<Bytes, u8>);

/// Document 01's table of sums, in its order.
#[rustfmt::skip]
pub(super) const SUMS: [Row; 17] = [
    (&[[0x81, 0x00, 0, 0, 0], [0x84, 0x20, 0, 0, 0]], DIVIDE, Ok([0x7D, 0x4C, 0xCC, 0xCC, 0xCC])),
    (&[[0x82, 0x00, 0, 0, 0], [0x82, 0x40, 0, 0, 0]], DIVIDE, Ok([0x80, 0x2A, 0xAA, 0xAA, 0xAA])),
    (&[[0x84, 0x70, 0, 0, 0], [0x84, 0x50, 0, 0, 0]], DIVIDE, Ok([0x81, 0x13, 0xB1, 0x3B, 0x14])),
    (&[[0x83, 0x20, 0, 0, 0], [0x82, 0x40, 0, 0, 0]], DIVIDE, Ok([0x81, 0x55, 0x55, 0x55, 0x55])),
    (&[[0xFF, 0x00, 0, 0, 0], [0x80, 0x40, 0, 0, 0]], DIVIDE, Ok([0xFF, 0x2A, 0xAA, 0xAA, 0xAA])),
    (&[[0xFF, 0x7F, 0xFF, 0xFF, 0xFF], [0x80, 0x00, 0, 0, 0]], DIVIDE, Err(6)),
    (&[[0x01, 0x80, 0, 0, 0], [0x82, 0x00, 0, 0, 0]], DIVIDE, Ok([0x01, 0x80, 0, 0, 0])),
    (&[[0x01, 0x00, 0, 0, 0], [0x83, 0x00, 0, 0, 0]], DIVIDE, Ok(ZERO)),
    (&[ZERO, ODD], DIVIDE, Err(6)),
    (&[[0, 0xFF, 0x18, 0x02, 0], [0, 0xFF, 0xE8, 0xFD, 0]], ADD, Ok(ODD)),
    (&[ODD, [0, 0xFF, 0xFF, 0xFF, 0]], ADD, Ok([0x81, 0x80, 0, 0, 0])),
    (&[[0x81, 0x00, 0, 0, 0], [0x61, 0x80, 0, 0, 0]], ADD, Ok([0x81, 0x00, 0, 0, 0])),
    (&[[0x81, 0x80, 0, 0, 0], [0x80, 0x7F, 0xFF, 0xFF, 0xFF]], ADD, Ok(ZERO)),
    (&[[0x81, 0xFF, 0xFF, 0xFF, 0xFF], [0x81, 0xFF, 0xFF, 0xFF, 0xFE]], ADD, Ok([0x82, 0xFF, 0xFF, 0xFF, 0xFE])),
    (&[[0x91, 0x80, 0x00, 0x80, 0x00]], TRUNCATE, Ok([0x91, 0x80, 0x00, 0x80, 0x00])),
    (&[[0x90, 0xFF, 0xFF, 0x80, 0x00]], INT, Ok(ODD)),
    (&[[0x91, 0x80, 0, 0, 0]], INT, Ok([0x81, 0x80, 0, 0, 0])),
];

/// Document 02, A1: 256 times 255, and 256 times 256, which is not short any more.
#[rustfmt::skip]
pub(super) const PRODUCTS: [Row; 2] = [
    (&[[0, 0, 0, 1, 0], [0, 0, 0xFF, 0, 0]], MULTIPLY, Ok([0, 0, 0, 0xFF, 0])),
    (&[[0, 0, 0, 1, 0], [0, 0, 0, 1, 0]], MULTIPLY, Ok([0x91, 0, 0, 0, 0])),
];

/// What the listings say in words: 1/10 and 1/1000 are not rounded up (001), I(2.4) is 2
/// and I(-2.4) is -2, INT (-65536) returns -1 (002), -65000 and -536 give odd (003).
#[rustfmt::skip]
pub(super) const LISTINGS: [Row; 9] = [
    (&[[0, 0, 1, 0, 0], [0, 0, 10, 0, 0]], DIVIDE, Ok([0x7D, 0x4C, 0xCC, 0xCC, 0xCC])),
    (&[[0, 0, 1, 0, 0], [0, 0, 0xE8, 0x03, 0]], DIVIDE, Ok([0x77, 0x03, 0x12, 0x6E, 0x97])),
    (&[[0x82, 0x19, 0x99, 0x99, 0x9A]], TRUNCATE, Ok([0, 0, 2, 0, 0])),
    (&[[0x82, 0x99, 0x99, 0x99, 0x9A]], TRUNCATE, Ok([0, 0xFF, 0xFE, 0xFF, 0])),
    (&[[0x82, 0x99, 0x99, 0x99, 0x9A]], INT, Ok([0, 0xFF, 0xFD, 0xFF, 0])),
    (&[[0x91, 0x80, 0, 0, 0]], TRUNCATE, Ok(ODD)),
    (&[[0x91, 0x80, 0x00, 0x7F, 0xFF]], TRUNCATE, Ok(ODD)),
    (&[ODD], INT, Ok([0x81, 0x80, 0, 0, 0])),
    (&[[0, 0xFF, 0xE8, 0xFD, 0], [0, 0xFF, 0x18, 0x02, 0]], ADD, Ok(ODD)),
];

fn row_cases(v: &mut Vectors, rows: &[Row]) {
    for &(operands, literal, expected) in rows {
        // By itself, as printed, and then among neighbours.
        let case = Case {
            call: Call::Operate(literal),
            depth: operands.len(),
            stack: operands.concat(),
        };
        let after = case.answer();
        match expected {
            Ok(number) => {
                assert_eq!((after.report, after.depth), (0, 1), "{case:02X?}");
                assert_eq!(after.stack[..5], number, "{case:02X?}");
                assert_eq!(after.stack[5..], case.stack[5..], "{case:02X?}");
            }
            Err(report) => {
                assert_eq!(after.report, report, "{case:02X?}");
                assert_eq!(after.depth, case.depth, "{case:02X?}");
                assert_eq!(after.stack, case.stack, "{case:02X?}");
            }
        }
        v.case(case);
        for _ in 0..5 {
            v.operate(literal, operands);
        }
    }
}

/// Document 01's run whole: 6 / 2, a copy, and no room for a second copy.
fn worked_run(v: &mut Vectors) {
    let case = Case {
        call: Call::Run(vec![5, 49, 49]),
        depth: 2,
        stack: vec![0, 0, 6, 0, 0, 0, 0, 2, 0, 0],
    };
    let after = case.answer();
    let found = (after.report, after.position, after.depth);
    assert_eq!(found, (4, Some(2), 2));
    let three = [0x82, 0x40, 0, 0, 0];
    assert_eq!(after.stack, [three, three].concat());
    v.case(case);
}

pub fn cases(v: &mut Vectors) {
    v.reason("document 01's table of sums, each by itself and among neighbours");
    row_cases(v, &SUMS);
    v.reason("A1's products: 256 times 255, 256 times 256");
    row_cases(v, &PRODUCTS);
    v.reason("the listings' examples: 1/10, 1/1000, 2.4, -2.4, -65536, -65000 + -536");
    row_cases(v, &LISTINGS);
    v.reason("document 01's run whole");
    worked_run(v);
}
