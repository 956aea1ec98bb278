//! Views and cells by themselves, with reports that no call gave.

use super::{edge_numbers, Vectors};
use crate::case::{Call, Case};
use crate::Bytes;

const GOOD: Bytes = [0x82, 0x40, 0, 0, 0];
const ODD: Bytes = [0, 0xFF, 0, 0, 0x5A];
const BAD: Bytes = [0, 0x7F, 1, 2, 3];

fn cell(v: &mut Vectors, report: u8, depth: usize, stack: Vec<u8>) {
    v.case(Case {
        call: Call::Cell(report),
        depth,
        stack,
    });
}

pub fn cases(v: &mut Vectors) {
    v.reason("the cell of every report, which it names where it is not 0");
    for report in 0..=255 {
        cell(v, report, 2, [BAD, GOOD, ODD].concat());
    }
    v.reason("a report before all else: blank, odd, malformed, too deep, too long");
    for report in [0, 1, 3, 6, 7, 255] {
        let three = [GOOD, ODD, BAD].concat();
        for depth in [0, 1, 2, 3, 4, usize::MAX, usize::MAX / 5 + 1] {
            cell(v, report, depth, three.clone());
        }
        for (depth, length) in [(0, 16_001), (1, 16_001), (1, 16_000), (3_201, 16_000)] {
            let mut stack = GOOD.to_vec();
            stack.resize(length, 0);
            cell(v, report, depth, stack);
        }
        for length in 0..5 {
            for depth in 0..=1 {
                cell(v, report, depth, vec![0x81; length]);
            }
        }
    }
    v.reason("the view and the cell of numbers at the edges of the rules");
    for x in edge_numbers() {
        cell(v, 0, 1, x.to_vec());
        cell(v, 0, 2, [BAD, x, ODD].concat());
    }
}
