//! Runs in an edition: it holds for every literal of them, at any depth and however many there are.

use super::{Vectors, BOTH, MENDED, MINUS_65536, ODD, SHIPPED};
use crate::case::{After, Call, Case};
use crate::draw::{number, short};
use crate::reference::literals::{
    ADD, ALL, DELETE, DIVIDE, DUPLICATE, EXCHANGE, INT, MULTIPLY, NEGATE, RE_STACK, SUBTRACT,
    TRUNCATE,
};
use crate::Bytes;

fn run(v: &mut Vectors, edition: u8, literals: &[u8], slots: &[Bytes], room: usize) -> After {
    let mut stack = slots.concat();
    stack.resize(stack.len() + room, 0xE5);
    v.case(Case {
        call: Call::RunIn(edition, literals.to_vec()),
        depth: slots.len(),
        stack,
    })
}

pub fn cases(v: &mut Vectors) {
    two_literals(v);
    forgotten(v);
    refused_on_the_way(v);
    down_to_the_last(v);
    many(v);
    empty(v);
}

fn two_literals(v: &mut Vectors) {
    v.reason("A3: every two literals one after the other, where both may go by the edition");
    let slots = [
        number(0x91, 0x8000_7FFF),
        short(-65_535, 9),
        short(-1, 0x21),
    ];
    for first in ALL {
        for second in ALL {
            for edition in BOTH {
                run(v, edition, &[first, second], &slots, 7);
            }
        }
    }
}

/// Literals that leave two numbers as they are: an even number of them.
fn idle(count: usize) -> Vec<u8> {
    let pattern = [EXCHANGE, EXCHANGE, DUPLICATE, DELETE];
    pattern.into_iter().cycle().take(count).collect()
}

/// The literals that go by the edition, on two numbers, with what each edition leaves of them.
fn deciding() -> [(u8, [Bytes; 2], [Bytes; 2]); 5] {
    let tenth = |last| [0x7D, 0x4C, 0xCC, 0xCC, last];
    [
        (
            DIVIDE,
            [number(0x81, 0), number(0x84, 0x2000_0000)],
            [tenth(0xCC), tenth(0xCD)],
        ),
        (
            ADD,
            [short(-1000, 0x5A), short(-64_536, 0)],
            [[0, 0xFF, 0, 0, 0x5A], MINUS_65536],
        ),
        (
            SUBTRACT,
            [short(-1, 0x5A), short(65_535, 0)],
            [[0, 0xFF, 0, 0, 0x5A], MINUS_65536],
        ),
        (
            TRUNCATE,
            [number(0x81, 0), number(0x91, 0x8000_7FFF)],
            [ODD, MINUS_65536],
        ),
        (
            INT,
            [number(0x81, 0), number(0x90, 0xFFFF_8000)],
            [ODD, MINUS_65536],
        ),
    ]
}

fn forgotten(v: &mut Vectors) {
    v.reason("A3: the edition counts at the first literal of a run, in the middle, at the last");
    for (before, after) in [
        (0, 0),
        (0, 1),
        (0, 8),
        (2, 0),
        (2, 2),
        (8, 0),
        (30, 30),
        (254, 2),
        (256, 0),
        (300, 300),
    ] {
        for (literal, operands, answers) in deciding() {
            let mut literals = idle(before);
            literals.push(literal);
            literals.extend([DUPLICATE, DELETE].into_iter().cycle().take(after));
            let done = literals.len();
            for (edition, left) in BOTH.into_iter().zip(answers) {
                let after = run(v, edition, &literals, &operands, 11);
                assert_eq!((after.report, after.position), (0, Some(done)));
                let start = after.view.expect("a number is left");
                assert_eq!(after.stack[start..start + 5], left);
            }
        }
    }
    v.reason("A3: the edition counts twice in a run, and all the way between");
    for (first, mut pair, _) in deciding() {
        for (second, other, _) in deciding() {
            pair.reverse();
            let slots = [other, pair].concat();
            let literals = [EXCHANGE, first, DELETE, second, DUPLICATE, first];
            for edition in BOTH {
                run(v, edition, &literals, &slots, 7);
            }
        }
    }
}

fn refused_on_the_way(v: &mut Vectors) {
    v.reason("A3: an odd number on top in a run, or below it, and report 3");
    let (good, odd) = (number(0x83, 0x2000_0000), [0, 0xFF, 0, 0, 0x21]);
    for position in [0, 1, 2, 7, 255, 256, 257] {
        // It is exchanged and copied before by literals that don't look at it.
        let mut before = [DUPLICATE, DELETE].repeat(position / 2);
        if position % 2 == 1 {
            before.insert(0, EXCHANGE);
        }
        for (literal, places) in [
            (SUBTRACT, 2),
            (MULTIPLY, 2),
            (DIVIDE, 2),
            (ADD, 2),
            (NEGATE, 1),
            (INT, 1),
            (TRUNCATE, 1),
            (RE_STACK, 1),
        ] {
            let literals = [&before[..], &[literal, DUPLICATE]].concat();
            for place in 1..=places {
                let mut slots = [good; 2];
                slots[(place + position) % 2] = odd;
                run(v, SHIPPED, &literals, &slots, 10);
                let after = run(v, MENDED, &literals, &slots, 10);
                assert_eq!((after.report, after.position), (3, Some(position)));
            }
        }
    }
    v.reason("A3: what the shipped edition leaves odd is refused in the mended one, and stays");
    for literal in ALL {
        for edition in BOTH {
            let slots = [short(2, 0), short(-65_000, 0x44), short(-536, 0)];
            let made = run(v, SHIPPED, &[ADD], &slots, 5).stack;
            v.case(Case {
                call: Call::RunIn(edition, vec![EXCHANGE, EXCHANGE, literal, literal]),
                depth: 2,
                stack: made,
            });
        }
    }
}

/// Seven numbers over and over, none of them odd, which make -65,536 and quotients on their way.
const SEVEN: [Bytes; 7] = [
    [0x83, 0x20, 0x00, 0x00, 0x01],
    [0x00, 0xFF, 0x01, 0x00, 0x21],
    [0x00, 0xFF, 0xFF, 0xFF, 0x00],
    [0x91, 0x80, 0x00, 0x7F, 0xFF],
    [0x00, 0x00, 0x0A, 0x00, 0x5A],
    [0x90, 0xFF, 0xFF, 0x80, 0x00],
    [0xA0, 0x7F, 0xFF, 0xFF, 0xFF],
];

fn down_to_the_last(v: &mut Vectors) {
    v.reason("A3: deep stacks, down to the last slot, in both editions");
    for depth in [3, 20, 256, 257] {
        let slots: Vec<Bytes> = SEVEN.into_iter().cycle().take(depth).collect();
        for pattern in [&[ADD][..], &[INT, SUBTRACT], &[TRUNCATE, EXCHANGE, DIVIDE]] {
            let length = (depth - 1) * pattern.len();
            let literals: Vec<u8> = pattern.iter().copied().cycle().take(length).collect();
            for edition in BOTH {
                run(v, edition, &literals, &slots, 0);
            }
        }
    }
    v.reason("A3: the deepest stack, 3,200 slots, in both editions");
    // -65,535 and -1 are on top.
    let slots: Vec<Bytes> = SEVEN.into_iter().cycle().skip(2).take(3_200).collect();
    for (edition, sum) in [(SHIPPED, [0, 0xFF, 0, 0, 0x21]), (MENDED, MINUS_65536)] {
        let after = run(v, edition, &[ADD], &slots, 0);
        assert_eq!(after.stack[5 * 3_198..5 * 3_199], sum);
    }
    // The edition's number is a literal of the pattern too, so that the line is short.
    run(v, MENDED, &[ADD, EXCHANGE].repeat(3_198), &slots, 0);
}

/// The lists of these have the edition's number at the end of each round, where it is the literal
/// that exchanges: so the line is short, and two numbers take turns.
fn many(v: &mut Vectors) {
    v.reason("A3: 60,000 literals in the mended edition, and about that many");
    let one_more = [DUPLICATE, DUPLICATE, DIVIDE, ADD, EXCHANGE];
    let one_less = [DUPLICATE, DUPLICATE, DIVIDE, SUBTRACT, INT, EXCHANGE];
    let tenth = [10, 0x5A].map(|b5| [0, 0, 1, 0, b5]);
    let rounds = |pattern: &[u8], length| -> Vec<u8> {
        pattern.iter().copied().cycle().take(length).collect()
    };
    for length in [255, 256, 257, 3_199, 32_768, 59_999, 60_000, 60_001, 61_000] {
        let (report, position) = match length {
            60_001.. => (1, 0),
            _ => (0, length),
        };
        for (pattern, slots) in [
            (&one_more[..], tenth),
            (&one_less[..], [short(-65_000, 0), short(-65_530, 1)]),
            // The one is at -65,536 after 59,999 literals, the other after some 36,000.
            (&one_less[..], [short(-60_536, 0), short(-62_500, 1)]),
        ] {
            let after = run(v, MENDED, &rounds(pattern, length), &slots, 10);
            assert_eq!((after.report, after.position), (report, Some(position)));
        }
    }
    v.reason("A3: a count down past -65536, which the shipped edition has start again at -1");
    for length in [6, 12, 36, 48, 1_200, 6_000] {
        let slots = [short(-65_535, 0), short(-65_530, 1)];
        for edition in BOTH {
            run(v, edition, &rounds(&one_less, length), &slots, 10);
        }
    }
}

fn empty(v: &mut Vectors) {
    v.reason("A3: empty runs at every depth, in both editions");
    for depth in 0..=4 {
        for edition in BOTH {
            v.case(Case {
                call: Call::RunIn(edition, vec![]),
                depth,
                stack: [ODD, SEVEN[0], ODD].concat(),
            });
        }
    }
}
