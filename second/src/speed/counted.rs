//! A recording of steps as a count has them, for the replay's row: numbers are pushed, mostly short
//! ones, and soon taken away again, and a step in thirty or so is refused.

use super::operands::{operand, Mix};
use super::work::{Call, Stacks, Work};
use crate::draw::short;
use crate::reference::literals::{
    ADD, DELETE, DIVIDE, DUPLICATE, EXCHANGE, INT, MULTIPLY, NEGATE, RE_STACK, SUBTRACT, TRUNCATE,
};
use crate::reference::replay::{Record, RECORD};
use crate::rng::Rng;
use crate::{reference, Step};

const RECORDS: usize = 4_000;
const STACK_LEN: usize = 16_000;
/// From this depth on a step takes away.
const DEEP: usize = 12;

/// As often as they stand here.
const LITERALS: [u8; 24] = [
    ADD, ADD, ADD, ADD, ADD, ADD, SUBTRACT, SUBTRACT, SUBTRACT, SUBTRACT, MULTIPLY, MULTIPLY,
    MULTIPLY, DIVIDE, DIVIDE, DIVIDE, INT, INT, EXCHANGE, DUPLICATE, DELETE, NEGATE, TRUNCATE,
    RE_STACK,
];
const TAKING: [u8; 5] = [ADD, SUBTRACT, MULTIPLY, DIVIDE, DELETE];
/// Literals that the ROM has and document 01 does not.
const IN_NO_ROW: [u8; 3] = [6, 40, 56];

pub fn replay(rng: &mut Rng) -> Work {
    let mut stack = vec![0; STACK_LEN];
    let mut depth = 0;
    let mut recording = Vec::with_capacity(RECORD * RECORDS);
    let mut refused = 0;
    while recording.len() < RECORD * RECORDS {
        let made = Record::of(step(rng, depth), &mut stack, depth);
        depth = made.depth;
        refused += usize::from(made.report != reference::DONE);
        recording.extend(made.written());
    }
    assert!((RECORDS / 50..RECORDS / 10).contains(&refused), "{refused}");
    Work {
        name: "replay of 4,000 records, a record".to_string(),
        promised: true,
        call: Call::Replay(recording),
        stacks: Stacks {
            bytes: vec![0; STACK_LEN],
            step: STACK_LEN,
            len: STACK_LEN,
            depth: 0,
        },
    }
}

fn step(rng: &mut Rng, depth: usize) -> Step {
    if rng.one_in(60) {
        return Step::Literal(rng.pick(&IN_NO_ROW));
    }
    match depth {
        0 | 1 if !rng.one_in(5) => number(rng),
        DEEP.. => Step::Literal(rng.pick(&TAKING)),
        _ if rng.below(5) < 2 => number(rng),
        _ => Step::Literal(rng.pick(&LITERALS)),
    }
}

/// Two in three are votes, papers and seats; now and then a zero, or bytes that are no number.
fn number(rng: &mut Rng) -> Step {
    Step::Push(match rng.below(100) {
        0..=1 => [0, 0x80, 0, 0, 0],
        2..=5 => short(0, 0),
        6..=24 => short(1 + rng.below(12) as i32, 0),
        25..=68 => short(rng.below(4_000) as i32, 0),
        69..=79 => operand(rng, Mix::Short),
        _ => operand(rng, Mix::Full),
    })
}
