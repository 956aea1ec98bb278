//! Numbers that are no edition: refused with 12 before all else.

use super::{Vectors, BOTH};
use crate::case::{Call, Case};
use crate::draw::short;
use crate::Bytes;

const BAD: Bytes = [0, 0x7F, 1, 2, 3];
const GOOD: Bytes = [0x82, 0x40, 0, 0, 0];

/// From either end, powers of two, and the number of the report itself.
const OTHERS: [u8; 7] = [2, 3, 12, 127, 128, 254, 255];

/// Refused with 12, and nothing is changed.
fn refused(v: &mut Vectors, call: Call, depth: usize, stack: Vec<u8>) {
    let after = v.case(Case {
        call,
        depth,
        stack: stack.clone(),
    });
    assert_eq!((after.report, after.position.unwrap_or(0)), (12, 0));
    assert_eq!((after.depth, after.stack), (depth, stack));
}

pub fn cases(v: &mut Vectors) {
    v.reason("A3: every number as an edition, of an operation and of a run: 0 and 1 are known");
    let stack = [short(1, 0), short(10, 0), [7; 5]].concat();
    for edition in 0..=255 {
        let calls = [
            Call::OperateIn(edition, 5),
            Call::RunIn(edition, vec![5, 49]),
        ];
        for call in calls {
            if BOTH.contains(&edition) {
                let (depth, stack) = (2, stack.clone());
                v.case(Case { call, depth, stack });
            } else {
                refused(v, call, 2, stack.clone());
            }
        }
    }
    before_all_else(v);
    over_long(v);
}

fn before_all_else(v: &mut Vectors) {
    v.reason(
        "A3: no such edition, where reports 1, 5, 2, 4, 3 and 6 would apply, or an empty list",
    );
    let zero = [0; 5];
    for edition in OTHERS {
        for (slots, depth, literal) in [
            ([GOOD, GOOD], 3, 15),
            ([GOOD, GOOD], usize::MAX, 15),
            ([GOOD, GOOD], usize::MAX / 5 + 1, 2),
            ([GOOD, GOOD], 2, 6),
            ([GOOD, GOOD], 0, 2),
            ([GOOD, GOOD], 1, 5),
            ([GOOD, GOOD], 2, 49),
            ([BAD, GOOD], 2, 15),
            ([GOOD, BAD], 2, 61),
            ([GOOD, [0, 0xFF, 0, 0, 9]], 2, 39),
            ([GOOD, zero], 2, 5),
            ([GOOD, GOOD], 2, edition),
        ] {
            refused(v, Call::OperateIn(edition, literal), depth, slots.concat());
            refused(
                v,
                Call::RunIn(edition, vec![literal, 2]),
                depth,
                slots.concat(),
            );
        }
        for depth in [0, 1, 2, 3] {
            refused(v, Call::RunIn(edition, vec![]), depth, GOOD.repeat(2));
        }
        for length in [0, 4, 5] {
            refused(v, Call::OperateIn(edition, 2), 1, vec![0x11; length]);
            refused(v, Call::RunIn(edition, vec![2]), 0, vec![0x11; length]);
        }
    }
}

/// Where each edition that there is gives report 1, from 16,001 bytes and 60,001 literals on.
fn over_long(v: &mut Vectors) {
    v.reason("A3: stacks over 16,000 bytes and lists over 60,000 literals, by edition");
    for edition in [0, 1, 2, 128, 255] {
        for length in [16_000, 16_001, 17_000] {
            let mut stack = GOOD.to_vec();
            stack.resize(length, 0);
            for call in [
                Call::OperateIn(edition, 27),
                Call::RunIn(edition, vec![27, 49]),
                Call::RunIn(edition, vec![]),
            ] {
                let (depth, stack) = (1, stack.clone());
                v.case(Case { call, depth, stack });
            }
        }
        // The list is of the edition's own number, so that the line is short.
        for length in [59_999, 60_000, 60_001, 61_000] {
            for depth in [0, 2, 4] {
                v.case(Case {
                    call: Call::RunIn(edition, vec![edition; length]),
                    depth,
                    stack: [GOOD, BAD, [9; 5]].concat(),
                });
            }
        }
    }
}
