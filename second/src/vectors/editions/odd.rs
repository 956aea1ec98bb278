//! Odd operands: report 3 in the mended edition, in its place among the reports, and a number as
//! before in the shipped one. Literals that don't look at a number take it in either.

use super::{in_both, known, Vectors, BOTH, MENDED, ODD, SHIPPED};
use crate::case::{Call, Case};
use crate::draw::{number, short};
use crate::reference::literals::{takes, ALL, DELETE, DIVIDE, DUPLICATE, EXCHANGE, MULTIPLY};
use crate::{Bytes, ZERO};

const BAD: Bytes = [0, 0x7F, 1, 2, 3];
const GOOD: Bytes = [0x82, 0x40, 0, 0, 0];
const HUGE: Bytes = [0xFF, 0x7F, 0xFF, 0xFF, 0xFF];

/// Literals that are not in the table.
const UNKNOWN: [u8; 3] = [0, 16, 255];

/// The literals of report 3's list.
const READING: [u8; 8] = [3, 4, 5, 15, 27, 39, 58, 61];

fn odd(b5: u8) -> Bytes {
    [0, 0xFF, 0, 0, b5]
}

pub fn cases(v: &mut Vectors) {
    operands(v);
    neighbours(v);
    fifth_bytes(v);
    not_taken(v);
    competing(v);
}

fn operands(v: &mut Vectors) {
    v.reason("A3: an odd operand of every literal, on top, below the top, and both");
    let others = [
        ZERO,
        short(1, 0),
        short(-65_535, 0x33),
        number(0x01, 0),
        number(0x91, 0x8000_0000),
        HUGE,
    ];
    for literal in ALL {
        for other in others {
            for pair in [[odd(0), other], [other, odd(0x5A)]] {
                in_both(v, literal, &pair);
            }
        }
        in_both(v, literal, &[odd(1), odd(2)]);
        in_both(v, literal, &[odd(3)]);
    }
    v.reason("A3: what the shipped edition makes of odd, and report 3 of the mended one");
    let minus_one = [0x81, 0x80, 0, 0, 0];
    for (literal, operands, shipped) in [
        (15, &[ODD, short(1, 0)][..], Ok([0, 0xFF, 1, 0, 0])),
        (3, &[short(1, 0), ODD], Ok(short(1, 0))),
        (MULTIPLY, &[ODD, HUGE], Ok(ZERO)),
        (DIVIDE, &[ODD, GOOD], Ok(ZERO)),
        (DIVIDE, &[GOOD, ODD], Err(6)),
        (27, &[odd(7)], Ok(ZERO)),
        (39, &[odd(7)], Ok(minus_one)),
        (58, &[odd(7)], Ok(odd(7))),
        (61, &[odd(7)], Ok(ZERO)),
    ] {
        known(v, literal, operands, [shipped, Err(3)]);
    }
    for literal in [EXCHANGE, DUPLICATE, DELETE] {
        let top = [odd(9), odd(8), GOOD][usize::from(literal) % 3];
        for edition in BOTH {
            let after = v.operate_in(edition, literal, &[GOOD, top]);
            assert!(matches!(after.report, 0 | 4), "{literal}");
        }
    }
}

fn neighbours(v: &mut Vectors) {
    v.reason("A3: bytes next to odd, which are numbers or malformed as ever");
    for x in [
        [0, 0xFF, 1, 0, 0],
        [0, 0xFF, 0, 1, 0],
        [0, 0xFF, 0, 0x80, 0],
        [0, 0x00, 0, 0, 0xFF],
        [0, 0xFE, 0, 0, 0],
        [0, 0x7F, 0, 0, 0],
        [1, 0xFF, 0, 0, 0],
    ] {
        for literal in READING {
            in_both(v, literal, &[GOOD, x]);
        }
    }
}

fn fifth_bytes(v: &mut Vectors) {
    v.reason("A3: odd with every fifth byte");
    for b5 in 0..=255 {
        let literal = READING[usize::from(b5) % 8];
        let after = v.operate_in(MENDED, literal, &[odd(!b5), odd(b5)]);
        assert_eq!(after.report, 3);
    }
}

fn not_taken(v: &mut Vectors) {
    v.reason("A3: odd slots that a literal does not take, below and above");
    for literal in ALL {
        let mut slots = vec![odd(1)];
        slots.extend(vec![GOOD; takes(literal).unwrap_or(0)]);
        let depth = slots.len();
        slots.extend([odd(2), odd(3)]);
        for edition in BOTH {
            let after = v.case(Case {
                call: Call::OperateIn(edition, literal),
                depth,
                stack: slots.concat(),
            });
            assert_eq!(after.report, 0);
        }
    }
}

/// Two slots, then room or none, at each depth, under each literal.
fn competing(v: &mut Vectors) {
    let contents = [
        ("on top", [GOOD, ODD]),
        ("below the top", [ODD, GOOD]),
        ("on top of a malformed one", [BAD, ODD]),
        ("below a malformed one", [ODD, BAD]),
        ("below a zero", [ODD, ZERO]),
        ("on top of the largest number", [HUGE, ODD]),
    ];
    for (words, numbers) in contents {
        v.reason(&format!(
            "A3: an odd number {words}: full, with room, too deep, too long"
        ));
        for more in [0, 5, 15_991] {
            let mut stack = numbers.concat();
            stack.resize(10 + more, 0);
            for depth in [0, 1, 2, stack.len() / 5 + 1] {
                for literal in ALL.into_iter().chain(UNKNOWN) {
                    // The long stacks differ from the short ones in report 1 only.
                    if more < 100 || literal % 3 != 0 {
                        let call = Call::OperateIn(MENDED, literal);
                        let stack = stack.clone();
                        v.case(Case { call, depth, stack });
                    }
                }
            }
        }
        for literal in ALL {
            v.operate_in(SHIPPED, literal, &numbers);
        }
    }
}
