//! What is no recording, and stacks beyond the limit: nothing is done, and 1 comes before 8.

use super::{agreeing, junk, known, literal_first, pushes_first, record, refusal};
use crate::draw::short;
use crate::reference::literals::{DELETE, DUPLICATE, MULTIPLY, NEGATE};
use crate::reference::replay::{LONGEST_RECORDING, RECORD};
use crate::vectors::Vectors;
use crate::Step::{self, Literal, Push};

pub fn cases(v: &mut Vectors) {
    reserved(v);
    parts(v);
    lengths(v);
    stacks(v);
}

fn reserved(v: &mut Vectors) {
    v.reason(
        "replays: each of the bytes 9 to 15 not zero, in each record, also after one that differs",
    );
    let stack = junk(18);
    for steps in [&pushes_first()[..], &literal_first()] {
        let recording = agreeing(&stack, steps);
        for number in 0..steps.len() {
            for byte in 9..16 {
                let mut recording = recording.clone();
                record(&mut recording, number)[byte] = [1, 0x80, 0xFF][(number + byte) % 3];
                refusal(v, &stack, &recording, 8);
                if number > 0 {
                    record(&mut recording, 0)[1 + byte % 2] ^= 3;
                    refusal(v, &stack, &recording, 8);
                }
            }
        }
    }
    v.reason("replays: two of these bytes, or all, which add up to zero or cancel out");
    let recording = agreeing(&stack, &pushes_first());
    for (first, second) in [((0, 9), (0, 10)), ((1, 15), (7, 15)), ((3, 12), (4, 12))] {
        for values in [(0x80, 0x80), (1, 0xFF), (0x5A, 0x5A)] {
            let mut recording = recording.clone();
            record(&mut recording, first.0)[first.1] = values.0;
            record(&mut recording, second.0)[second.1] = values.1;
            refusal(v, &stack, &recording, 8);
        }
    }
    let mut recording = recording.clone();
    record(&mut recording, 5)[9..].fill(0xFF);
    refusal(v, &stack, &recording, 8);
}

fn parts(v: &mut Vectors) {
    v.reason("replays: a part record of 1 to 15 bytes, alone, of zeros, after good ones and after one that differs");
    let stack = junk(20);
    let recording = agreeing(&stack, &pushes_first());
    for bytes in 1..RECORD {
        refusal(v, &stack, &recording[..bytes], 8);
        refusal(v, &stack, &vec![0; bytes], 8);
        refusal(v, &stack, &recording[..7 * RECORD + bytes], 8);
        let mut longer = recording.clone();
        longer.resize(8 * RECORD + bytes, 0);
        refusal(v, &stack, &longer, 8);
        record(&mut longer, 0)[1] = 3;
        refusal(v, &stack, &longer, 8);
    }
}

/// These steps, which end as they began, over and over.
fn repeated(stack: &[u8], steps: &[Step], length: usize) -> Vec<u8> {
    let once = agreeing(stack, steps);
    once.into_iter().cycle().take(length).collect()
}

fn lengths(v: &mut Vectors) {
    let square = [
        Push(short(-6, 0)),
        Literal(DUPLICATE),
        Literal(MULTIPLY),
        Literal(DELETE),
    ];
    let three = [
        Push([0x82, 0x40, 0, 0, 1]),
        Literal(NEGATE),
        Literal(DELETE),
    ];
    let most = LONGEST_RECORDING;
    v.reason("replays of 64,000 bytes, and of a record less");
    for stack in [junk(13), vec![], junk(4)] {
        for steps in [&square[..], &three] {
            for length in [most, most - RECORD] {
                let recording = repeated(&stack, steps, length);
                known(v, &stack, &recording, 0, length / RECORD);
            }
        }
    }
    v.reason("replays of more than 64,000 bytes, whole records and parts of one, and of 63,999");
    let stack = junk(13);
    for length in [
        63_999, 64_001, 64_015, 64_016, 64_017, 64_032, 64_992, 65_000,
    ] {
        for steps in [&square[..], &three] {
            refusal(v, &stack, &repeated(&stack, steps, length), 8);
        }
        refusal(v, &stack, &vec![0; length], 8);
        refusal(v, &stack, &vec![0x31; length], 8);
    }
    v.reason("replays of 64,000 bytes that differ, or are no recording");
    let mut zeros = vec![0; most];
    known(v, &stack, &zeros, 2, 0);
    zeros[..8 * RECORD].copy_from_slice(&agreeing(&stack, &pushes_first()));
    known(v, &stack, &zeros, 2, 8);
    let mut moved = agreeing(&stack, &square);
    record(&mut moved, 2)[8] = 1;
    let all: Vec<u8> = moved.iter().copied().cycle().take(most).collect();
    known(v, &stack, &all, 3, 2);
    record(&mut moved, 3)[11] = 1;
    let all: Vec<u8> = moved.iter().copied().cycle().take(most).collect();
    refusal(v, &stack, &all, 8);
}

/// The lengths at which a stack takes nothing, one number, the most and too much.
fn stacks(v: &mut Vectors) {
    v.reason("replays on stacks of no bytes, less than a slot, a slot, 16,000 and more: 1 comes before 8");
    let mut other = agreeing(&junk(15), &pushes_first());
    record(&mut other, 7)[9] = 1;
    for length in [0, 1, 4, 5, 9, 10, 15_999, 16_000, 16_001, 16_004, 17_000] {
        let mut stack = junk(length);
        // A long stack's bytes after the first are zeros, which an answer leaves out.
        if length > 100 {
            stack[25..].fill(0);
        }
        let own = agreeing(&stack, &pushes_first());
        let part = &own[..own.len() - 1];
        let over = repeated(&junk(15), &[Push(short(1, 0)), Literal(DELETE)], 64_016);
        if length > 16_000 {
            for recording in [&[][..], &own, &other, part, &over, &vec![0; 64_000]] {
                refusal(v, &stack, recording, 1);
            }
        } else {
            known(v, &stack, &[], 0, 0);
            known(v, &stack, &own, 0, 8);
            for recording in [&other[..], part, &over] {
                refusal(v, &stack, recording, 8);
            }
        }
    }
    v.reason("replays on a long stack of any bytes: those above the depth stay, and do not matter");
    for length in [15_998, 16_000] {
        let stack = junk(length);
        known(v, &stack, &agreeing(&stack, &pushes_first()), 0, 8);
    }
    let steps = [&literal_first()[..], &pushes_first()].concat();
    let recording = agreeing(&junk(30), &steps);
    for stack in [
        vec![0; 30],
        vec![0xFF; 31],
        vec![0x31; 32],
        junk(33),
        junk(43)[10..].to_vec(),
    ] {
        known(v, &stack, &recording, 0, 15);
    }
}
