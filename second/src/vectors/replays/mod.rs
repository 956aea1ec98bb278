//! Replays: what of a record is compared and in which order, what is no recording, and what a
//! replay does to the stack.

mod depths;
mod fields;
mod lines;
mod random;
mod refusals;
mod refused;
mod tops;

use super::Vectors;
use crate::case::{After, Call, Case};
use crate::draw::short;
use crate::recording::draw::recorded;
use crate::reference::literals::{
    ADD, DELETE, DIVIDE, DUPLICATE, EXCHANGE, INT, MULTIPLY, NEGATE, SUBTRACT,
};
use crate::reference::replay::RECORD;
use crate::Bytes;
use crate::Step::{self, Literal, Push};

const BAD: Bytes = [0, 0x7F, 1, 2, 3];

/// Slots of any bytes, malformed ones among them. They repeat, so that a long stack is written
/// in a short line.
fn junk(length: usize) -> Vec<u8> {
    let bytes = (0..125).map(|i: usize| (i * i + 77 * i + 1) as u8 & [0, 0xFF, 0xFF][i % 3]);
    bytes
        .collect::<Vec<u8>>()
        .into_iter()
        .cycle()
        .take(length)
        .collect()
}

/// Eight steps that are all done. The first are pushes, the last is a literal.
fn pushes_first() -> [Step; 8] {
    [
        Push(short(10, 0x21)),
        Push(short(4, 0)),
        Literal(DIVIDE),
        Push(short(7, 0)),
        Literal(EXCHANGE),
        Literal(SUBTRACT),
        Literal(NEGATE),
        Literal(INT),
    ]
}

/// Seven steps: the first is a literal, which is refused, the last is a push.
fn literal_first() -> [Step; 7] {
    [
        Literal(ADD),
        Push(short(3, 0)),
        Literal(DUPLICATE),
        Push(short(65_535, 0)),
        Literal(MULTIPLY),
        Literal(DELETE),
        Push(short(-2, 0x5A)),
    ]
}

/// The recording of these steps on this stack, which agrees.
fn agreeing(stack: &[u8], steps: &[Step]) -> Vec<u8> {
    recorded(&mut stack.to_vec(), steps)
}

fn record(recording: &mut [u8], number: usize) -> &mut [u8] {
    &mut recording[RECORD * number..RECORD * (number + 1)]
}

fn replay(v: &mut Vectors, stack: &[u8], recording: &[u8]) -> After {
    v.case(Case {
        call: Call::Replay(recording.to_vec()),
        depth: 0,
        stack: stack.to_vec(),
    })
}

/// The same, where it is known what it comes to: the number of the field, and the count.
fn known(v: &mut Vectors, stack: &[u8], recording: &[u8], field: u8, count: usize) {
    let after = replay(v, stack, recording);
    let found = (after.report, after.field, after.position);
    assert_eq!(found, (0, Some(field), Some(count)), "{recording:02X?}");
}

/// The same, where it is refused with a number.
fn refusal(v: &mut Vectors, stack: &[u8], recording: &[u8], number: u8) {
    let after = replay(v, stack, recording);
    let found = (after.report, after.field, after.position, after.depth);
    assert_eq!(found, (number, Some(0), Some(0), 0));
    assert_eq!(after.stack, stack);
}

pub fn cases(v: &mut Vectors) {
    fields::cases(v);
    tops::cases(v);
    depths::cases(v);
    refusals::cases(v);
    refused::cases(v);
    random::cases(v);
    lines::cases(v);
}
