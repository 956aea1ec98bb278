//! The top: all five bytes of it for a literal, and zeros at depth 0; for a push it is the pushed
//! bytes, which are held to nothing.

use super::{agreeing, junk, known, pushes_first, record, BAD};
use crate::draw::short;
use crate::reference::literals::{DELETE, DIVIDE, DUPLICATE, EXCHANGE, MULTIPLY, NEGATE, SUBTRACT};
use crate::vectors::Vectors;
use crate::Step::{Literal, Push};

pub fn cases(v: &mut Vectors) {
    each_byte(v);
    same_value(v);
    pushed(v);
    at_depth_0(v);
}

fn each_byte(v: &mut Vectors) {
    v.reason("replays: each byte of a top moved: of full numbers, of short ones and of zeros");
    let stack = junk(21);
    let mut steps = pushes_first().to_vec();
    steps.extend([Push([0x91, 0x12, 0x34, 0x56, 0x78]), Literal(NEGATE)]);
    steps.extend([Literal(DUPLICATE), Literal(SUBTRACT), Literal(NEGATE)]);
    let recording = agreeing(&stack, &steps);
    for number in (0..steps.len()).filter(|&i| matches!(steps[i], Literal(_))) {
        for byte in 4..9 {
            for bits in [0x01, 0x80, 0xFF] {
                let mut recording = recording.clone();
                record(&mut recording, number)[byte] ^= bits;
                known(v, &stack, &recording, 3, number);
            }
        }
    }
}

fn same_value(v: &mut Vectors) {
    v.reason("replays: numbers of one value and other bytes are not the same top");
    let stack = junk(11);
    for (pushed, recorded) in [
        (short(5, 9), short(5, 0)),
        (short(0, 9), short(0, 0)),
        (short(5, 0), [0x83, 0x20, 0, 0, 0]),
        ([0x83, 0x20, 0, 0, 0], short(5, 0)),
        ([0, 0xFF, 0, 0, 0], [0, 0, 0, 0, 0]),
        ([0, 0xFF, 0, 0, 0], [0x91, 0x80, 0, 0, 0]),
    ] {
        let mut recording = agreeing(&stack, &[Push(pushed), Literal(DUPLICATE)]);
        known(v, &stack, &recording, 0, 2);
        record(&mut recording, 1)[4..9].copy_from_slice(&recorded);
        known(v, &stack, &recording, 3, 1);
    }
}

fn pushed(v: &mut Vectors) {
    v.reason(
        "replays: other bytes pushed than were recorded; the next top shows it, if there is one",
    );
    let stack = junk(23);
    let steps = [
        Push(short(12, 0)),
        Push(short(5, 0)),
        Literal(EXCHANGE),
        Literal(EXCHANGE),
        Literal(MULTIPLY),
        Push(short(9, 0)),
    ];
    for (number, count, field) in [(0, 2, 3), (1, 3, 3), (5, 6, 0)] {
        for byte in 4..9 {
            for bits in [0x01, 0x03] {
                let mut recording = agreeing(&stack, &steps);
                record(&mut recording, number)[byte] ^= bits;
                // With b2 moved it is malformed, which the report shows.
                let malformed = byte == 5;
                let (field, count) = if malformed {
                    (1, number)
                } else {
                    (field, count)
                };
                known(v, &stack, &recording, field, count);
            }
        }
    }
    v.reason("replays: a refused push agrees, whose bytes are not the top's");
    for (slots, last) in [(3, BAD), (2, short(8, 1)), (2, BAD)] {
        let stack = junk(5 * slots + 2);
        let steps = [Push(short(12, 0)), Push(short(5, 0)), Push(last)];
        known(v, &stack, &agreeing(&stack, &steps), 0, 3);
    }
}

fn at_depth_0(v: &mut Vectors) {
    v.reason("replays: at depth 0 the top is zeros, and any other differs, that of slot 0 too");
    let deleted = [0x84, 0x70, 0x11, 0x22, 0x33];
    for stack in [junk(12), vec![0; 12], vec![0xFF; 5], vec![]] {
        let delete = [Push(deleted), Literal(DELETE)];
        for steps in [&delete[..], &[Literal(DIVIDE)], &[Literal(255)]] {
            let recording = agreeing(&stack, steps);
            known(v, &stack, &recording, 0, steps.len());
            let last = steps.len() - 1;
            let mut tops = vec![deleted, [0, 0xFF, 0, 0, 0]];
            tops.extend((0..5).map(|byte| [0, 1, 2, 3, 4].map(|i| u8::from(i == byte))));
            // What the stack has there, as it is lent.
            tops.extend(stack.first_chunk().filter(|slot| **slot != [0; 5]));
            for top in tops {
                let mut recording = recording.clone();
                record(&mut recording, last)[4..9].copy_from_slice(&top);
                known(v, &stack, &recording, 3, last);
            }
        }
    }
}
