//! Document 02's A2: a short sum keeps the first number's b5. What comes out is written beside
//! each case, by the listing 003, and asserted.

use super::Vectors;
use crate::case::{Call, Case};
use crate::draw::short;
use crate::recording::draw::recorded;
use crate::reference::literals::{
    ADD, DELETE, DIVIDE, DUPLICATE, EXCHANGE, INT, MULTIPLY, NEGATE, RE_STACK, SUBTRACT, TRUNCATE,
};
use crate::reference::replay::RECORD;
use crate::Step::{Literal, Push};
use crate::{Bytes, ZERO};

const FIFTHS: [u8; 4] = [0, 1, 0x80, 0xFF];

/// Each of them once as the first number's and once as the second's.
const PAIRS: [(u8, u8); 4] = [(0, 0xFF), (1, 0x80), (0x80, 0), (0xFF, 1)];

const ODD: i32 = -65_536;
const MINUS_ONE: Bytes = [0x81, 0x80, 0, 0, 0];

pub fn cases(v: &mut Vectors) {
    seen_in_the_rom(v);
    sums(v);
    zeros(v);
    beyond(v);
    one_full(v);
    whole(v);
    used_again(v);
    replays(v);
}

/// One literal, whose result is known.
fn known(v: &mut Vectors, literal: u8, operands: &[Bytes], result: Bytes) {
    let after = v.operate(literal, operands);
    assert_eq!(after.report, 0, "{literal} on {operands:02X?}");
    let top = &after.stack[5 * (after.depth - 1)..5 * after.depth];
    assert_eq!(top, result, "{literal} on {operands:02X?}");
}

fn seen_in_the_rom(v: &mut Vectors) {
    v.reason("A2: a sum and a difference as the ROM's own code leaves them");
    for (first, literal, second, result) in [
        (
            [0, 0, 1, 0, 0x9B],
            ADD,
            [0, 0, 2, 0, 0x11],
            [0, 0, 3, 0, 0x9B],
        ),
        (
            [0, 0xFF, 0xFF, 0xFF, 0x9B],
            SUBTRACT,
            [0, 0, 1, 0, 0],
            [0, 0xFF, 0xFE, 0xFF, 0x9B],
        ),
    ] {
        for _ in 0..5 {
            known(v, literal, &[first, second], result);
        }
    }
}

fn sums(v: &mut Vectors) {
    v.reason("A2: short sums and differences, odd ones too: b5 is the first number's");
    for (first, literal, second, result) in [
        (300, ADD, 77, 377),
        (-300, SUBTRACT, 77, -377),
        (-65_000, ADD, -536, ODD),
        (-1, SUBTRACT, 65_535, ODD),
        (ODD, ADD, 65_535, -1),
    ] {
        for b5 in FIFTHS {
            for other in FIFTHS {
                let operands = [short(first, b5), short(second, other)];
                known(v, literal, &operands, short(result, b5));
            }
        }
    }
}

fn zeros(v: &mut Vectors) {
    v.reason("A2: a zero as the first number, the second or the sum; odd, negated, is a zero");
    for (first, literal, second, result) in [
        (0, ADD, 0, 0),
        (0, SUBTRACT, 0, 0),
        (0, ADD, 5, 5),
        (0, SUBTRACT, 5, -5),
        (5, ADD, 0, 5),
        (5, SUBTRACT, 0, 5),
        (ODD, ADD, 0, ODD),
        (ODD, SUBTRACT, 0, ODD),
        (65_535, ADD, -65_535, 0),
        (-5, SUBTRACT, -5, 0),
        (5, SUBTRACT, ODD, 5),
        (ODD, SUBTRACT, ODD, ODD),
    ] {
        for (b5, other) in PAIRS {
            let operands = [short(first, b5), short(second, other)];
            known(v, literal, &operands, short(result, b5));
        }
    }
}

fn beyond(v: &mut Vectors) {
    v.reason("A2: just beyond the short route, where b5 does not stay; odd counts as zero");
    for (first, literal, second, result) in [
        (65_535, ADD, 1, [0x91, 0, 0, 0, 0]),
        (65_535, SUBTRACT, -1, [0x91, 0, 0, 0, 0]),
        (-65_535, ADD, -2, [0x91, 0x80, 0, 0x80, 0]),
        (-65_535, SUBTRACT, 2, [0x91, 0x80, 0, 0x80, 0]),
        (ODD, ADD, -1, MINUS_ONE),
        (ODD, SUBTRACT, 1, MINUS_ONE),
        (-1, ADD, ODD, MINUS_ONE),
        (ODD, ADD, ODD, ZERO),
    ] {
        for (b5, other) in PAIRS {
            known(
                v,
                literal,
                &[short(first, b5), short(second, other)],
                result,
            );
        }
    }
}

fn one_full(v: &mut Vectors) {
    v.reason("A2: a short number and a full one, where b5 does not stay either");
    let five = [0x83, 0x20, 0, 0, 0];
    let minus_five = [0x83, 0xA0, 0, 0, 0];
    let six = [0x83, 0x40, 0, 0, 0];
    for b5 in FIFTHS {
        known(v, ADD, &[short(0, b5), five], five);
        known(v, SUBTRACT, &[five, short(0, b5)], five);
        known(v, ADD, &[short(1, b5), five], six);
        known(v, ADD, &[short(5, b5), minus_five], ZERO);
        known(v, SUBTRACT, &[five, short(5, b5)], ZERO);
    }
}

/// Int subtracts 1 from what truncation leaves. That has a fifth byte only where it is short
/// already, and then nothing is subtracted, or odd, and then the sum is not short.
fn whole(v: &mut Vectors) {
    v.reason("A2: int and truncate leave b5 of a short number, and int of odd has none");
    for b5 in FIFTHS {
        for value in [0, 5, -65_535] {
            for literal in [INT, TRUNCATE] {
                known(v, literal, &[short(value, b5)], short(value, b5));
            }
        }
        known(v, INT, &[short(ODD, b5)], MINUS_ONE);
        known(v, TRUNCATE, &[short(ODD, b5)], short(ODD, b5));
    }
}

/// A run on four short numbers with these fifth bytes, which is done whole and leaves this.
fn run(v: &mut Vectors, literals: &[u8], fifths: [u8; 4], left: &[Bytes]) {
    let [a, b, c, d] = fifths;
    let slots = [short(40, a), short(-6, b), short(3, c), short(-7, d)];
    let after = v.case(Case {
        call: Call::Run(literals.to_vec()),
        depth: 4,
        stack: [&slots.concat()[..], &[0xE1, 0xE2, 0xE3, 0xE4, 0xE5, 0xE6]].concat(),
    });
    assert_eq!(after.report, 0, "{literals:?}");
    assert_eq!(after.position, Some(literals.len()), "{literals:?}");
    assert_eq!(after.depth, left.len(), "{literals:?}");
    let below = &after.stack[..5 * after.depth];
    assert_eq!(below, left.concat(), "{literals:?}");
}

fn used_again(v: &mut Vectors) {
    v.reason("A2: a sum used again: what keeps its b5, what clears it, and whose it is");
    for fifths in [[0, 0, 0, 0xFF], [0x9B, 0, 0x80, 0], [1, 2, 3, 4]] {
        let [a, b, c, d] = fifths;
        let (forty, minus_six) = (short(40, a), short(-6, b));
        let mut three = |literals: &[u8], top| run(v, literals, fifths, &[forty, minus_six, top]);
        three(&[ADD, NEGATE], short(4, 0));
        three(&[ADD, TRUNCATE], short(-4, c));
        three(&[ADD, INT], short(-4, c));
        three(&[ADD, RE_STACK], [0x83, 0x80, 0, 0, 0]);
        three(&[ADD, DUPLICATE, SUBTRACT], short(0, c));
        three(&[ADD, DUPLICATE, SUBTRACT, NEGATE], short(0, c));
        three(&[ADD, DUPLICATE, SUBTRACT, RE_STACK], ZERO);
        three(&[EXCHANGE, ADD], short(-4, d));
        three(&[EXCHANGE, NEGATE, EXCHANGE, ADD], short(-10, 0));
        let minus_four = short(-4, c);
        run(
            v,
            &[ADD, DUPLICATE],
            fifths,
            &[forty, minus_six, minus_four, minus_four],
        );
        run(v, &[ADD, EXCHANGE], fifths, &[forty, minus_four, minus_six]);
        run(v, &[ADD, DELETE], fifths, &[forty, minus_six]);
        run(v, &[ADD, ADD], fifths, &[forty, short(-10, b)]);
        run(v, &[ADD, SUBTRACT], fifths, &[forty, short(-2, b)]);
        run(v, &[SUBTRACT, ADD, SUBTRACT], fifths, &[short(36, a)]);
        run(v, &[ADD, EXCHANGE, SUBTRACT], fifths, &[forty, short(2, c)]);
        run(v, &[ADD, MULTIPLY], fifths, &[forty, short(24, 0)]);
        run(v, &[ADD, MULTIPLY, ADD], fifths, &[short(64, a)]);
        let quotient = [0x81, 0x40, 0, 0, 0];
        run(v, &[ADD, DIVIDE], fifths, &[forty, quotient]);
        run(v, &[ADD, DIVIDE, INT, ADD], fifths, &[short(41, a)]);
    }
}

fn replays(v: &mut Vectors) {
    v.reason("A2: replays, where b5 of a short sum is a byte of the top as any other");
    for (b5, other) in PAIRS {
        for (literal, sum) in [(ADD, 3), (SUBTRACT, -1)] {
            let steps = [
                Push(short(1, b5)),
                Push(short(2, other)),
                Literal(literal),
                Literal(NEGATE),
            ];
            let mut recording = recorded(&mut [0x31; 12], &steps);
            assert_eq!(recording[2 * RECORD + 4..][..5], short(sum, b5));
            assert_eq!(recording[3 * RECORD + 4..][..5], short(-sum, 0));
            for (recorded, field, count) in [(b5, 0, 4), (other, 3, 2)] {
                recording[2 * RECORD + 8] = recorded;
                let after = v.case(Case {
                    call: Call::Replay(recording.clone()),
                    depth: 0,
                    stack: vec![0x31; 12],
                });
                assert_eq!((after.field, after.position), (Some(field), Some(count)));
            }
        }
    }
}
