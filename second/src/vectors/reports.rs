//! Every report, alone and with each other that can apply at the same time.

use super::Vectors;
use crate::case::{Call, Case};
use crate::reference::literals::ALL;
use crate::Bytes;

const BAD: Bytes = [0, 0x7F, 1, 2, 3];
const GOOD: Bytes = [0x82, 0x40, 0, 0, 0];
const NONE: Bytes = [0, 0, 0, 0, 0];
const HUGE: Bytes = [0xFF, 0x7F, 0xFF, 0xFF, 0xFF];
const TINY: Bytes = [0x01, 0, 0, 0, 0];

/// Literals that are not in the table, from either end and between the others.
const UNKNOWN: [u8; 6] = [0, 6, 14, 40, 62, 255];

fn case(v: &mut Vectors, call: Call, depth: usize, stack: &[u8]) {
    v.case(Case {
        call,
        depth,
        stack: stack.to_vec(),
    });
}

pub fn cases(v: &mut Vectors) {
    v.reason("every byte as a literal, on two good numbers, on one and on none");
    let two = [GOOD, GOOD, [7; 5]].concat();
    for literal in 0..=255 {
        for depth in 0..=2 {
            case(v, Call::Operate(literal), depth, &two);
        }
    }
    competing(v);
    limits(v);
    pushes(v);
}

/// Two slots of any contents, then room or none, at each depth, under each literal.
fn competing(v: &mut Vectors) {
    let contents = [
        ("two good numbers", [GOOD, GOOD]),
        ("a malformed number on top", [GOOD, BAD]),
        ("a malformed number below the top", [BAD, GOOD]),
        ("two malformed numbers", [BAD, BAD]),
        ("a zero on top", [GOOD, NONE]),
        ("a zero on top of a malformed number", [BAD, NONE]),
        ("a malformed number on top of a zero", [NONE, BAD]),
        ("a quotient too big", [HUGE, TINY]),
        ("a sum and a product too big", [HUGE, HUGE]),
    ];
    for (words, numbers) in contents {
        v.reason(&format!("{words}: full, with room, too deep, too long"));
        for more in [0, 4, 5, 15_990, 15_991] {
            let mut stack = numbers.concat();
            stack.resize(10 + more, 0);
            let full = stack.len() / 5;
            for depth in [0, 1, 2, full + 1, usize::MAX, usize::MAX / 5 + 1] {
                for literal in ALL.into_iter().chain(UNKNOWN) {
                    // The long stacks differ from the short ones in report 1 only.
                    if more < 100 || literal % 3 != 0 {
                        case(v, Call::Operate(literal), depth, &stack);
                    }
                }
                case(v, Call::Push(numbers[0].to_vec()), depth, &stack);
                case(v, Call::Push(numbers[1][..4].to_vec()), depth, &stack);
            }
        }
    }
}

/// Report 1 at its edges: 16,000 bytes, five times the depth, 60,000 literals.
fn limits(v: &mut Vectors) {
    v.reason("stacks about 16,000 bytes, full and over-full");
    for len in [
        15_994, 15_995, 15_999, 16_000, 16_001, 16_004, 16_005, 16_999,
    ] {
        let mut stack = vec![0; len];
        stack[..5].copy_from_slice(&GOOD);
        for depth in [0, 1, 2, 3_198, 3_199, 3_200, 3_201, 3_202] {
            for literal in [1, 2, 4, 15, 27, 49, 50] {
                case(v, Call::Operate(literal), depth, &stack);
            }
            case(v, Call::Push(GOOD.to_vec()), depth, &stack);
            case(v, Call::Run(vec![]), depth, &stack);
        }
    }
    v.reason("depths whose product by 5 passes 2^64 and comes back small");
    let stack = [GOOD, GOOD, GOOD].concat();
    for depth in [
        usize::MAX,
        usize::MAX - 1,
        usize::MAX / 5,
        usize::MAX / 5 + 1,
        usize::MAX / 5 * 2 + 1,
        usize::MAX / 5 * 2 + 2,
        usize::MAX / 5 * 3 + 2,
        1 << 63,
        1 << 32,
        4,
    ] {
        for literal in [2, 4, 15, 49, 99] {
            case(v, Call::Operate(literal), depth, &stack);
            case(v, Call::Run(vec![literal]), depth, &stack);
        }
        case(v, Call::Push(GOOD.to_vec()), depth, &stack);
        case(v, Call::Run(vec![]), depth, &stack);
    }
    v.reason("stacks of no bytes and of less than a slot");
    for len in 0..=6 {
        for depth in 0..=2 {
            for literal in [2, 49, 61, 77] {
                case(v, Call::Operate(literal), depth, &vec![0x11; len]);
            }
            case(v, Call::Push(GOOD.to_vec()), depth, &vec![0x11; len]);
        }
    }
    v.reason("lists of 60,000 literals and more; only a list over that is report 1");
    for len in [59_999, 60_000, 60_001, 60_999] {
        for first in [2, 49, 27, 0] {
            let mut literals = vec![0; len];
            literals[0] = first;
            for depth in [0, 1, 3, 4] {
                case(v, Call::Run(literals.clone()), depth, &stack);
            }
        }
    }
}

fn pushes(v: &mut Vectors) {
    v.reason("pushes of 0 to 7 bytes, with room, without, at depth 0 and over the end");
    for len in 0..=7 {
        for room in [0, 4, 5, 9] {
            for b2 in [0x00, 0xFF, 0x01, 0x80] {
                let number = [0, b2, 3, 4, 5, 6, 7][..len].to_vec();
                let mut stack = GOOD.to_vec();
                stack.resize(5 + room, 0xEE);
                for depth in 0..=2 {
                    case(v, Call::Push(number.clone()), depth, &stack);
                }
            }
        }
    }
    v.reason("a push of b1 zero with every second byte");
    for b2 in 0..=255 {
        case(
            v,
            Call::Push(vec![0, b2, 9, 8, b2]),
            1,
            &[GOOD, [0xDD; 5]].concat(),
        );
    }
    v.reason("a push of every exponent byte: all that are not zero are well formed");
    for b1 in 1..=255 {
        case(v, Call::Push(vec![b1, b1 ^ 0x55, 1, 2, 3]), 0, &[0xCC; 7]);
    }
}
