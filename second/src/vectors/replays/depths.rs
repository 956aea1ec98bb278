//! Depths and counts over 255: the depth has two bytes in a record, low first.

use super::{agreeing, junk, known, record};
use crate::draw::short;
use crate::reference::literals::{ADD, DUPLICATE, EXCHANGE};
use crate::reference::replay::RECORD;
use crate::vectors::Vectors;
use crate::Step::{self, Literal, Push};

/// So many records fit a line.
const MOST: usize = 2_030;

/// Numbers that are all different: a slot's number cut to 8 bits leads to another one.
fn pushes(count: usize) -> Vec<Step> {
    (0..count)
        .map(|i| Push(short(7 * i as i32, i as u8)))
        .collect()
}

pub fn cases(v: &mut Vectors) {
    v.reason("replays: depths up to 300, low byte first");
    let stack = junk(5 * 301 + 3);
    let mut steps = pushes(300);
    steps.extend([Literal(EXCHANGE), Literal(DUPLICATE), Literal(ADD)]);
    let recording = agreeing(&stack, &steps);
    known(v, &stack, &recording, 0, steps.len());
    // The bytes of 1, 256 and 300 swapped are another depth; those of 257 are the same.
    for (number, same) in [
        (0, false),
        (255, false),
        (256, true),
        (299, false),
        (300, false),
    ] {
        let mut recording = recording.clone();
        record(&mut recording, number).swap(2, 3);
        let (field, count) = if same { (0, steps.len()) } else { (2, number) };
        known(v, &stack, &recording, field, count);
    }
    v.reason("replays: either byte of a depth moved by itself");
    for number in [0, 1, 254, 255, 256, 257, 299, 302] {
        for byte in [2, 3] {
            let mut recording = recording.clone();
            record(&mut recording, number)[byte] ^= 1;
            known(v, &stack, &recording, 2, number);
        }
    }
    v.reason("replays: a top 256 slots lower");
    for number in [300, 301, 302] {
        let mut recording = recording.clone();
        let lower = recording[RECORD * (number - 257) + 4..][..5].to_vec();
        record(&mut recording, number)[4..9].copy_from_slice(&lower);
        known(v, &stack, &recording, 3, number);
    }
    v.reason("replays: no room at depth 255, 256 and 257, and on with what is there");
    for slots in [255, 256, 257] {
        let stack = junk(5 * slots + 4);
        let mut steps = pushes(slots + 1);
        steps.extend([Literal(DUPLICATE), Literal(ADD)]);
        known(v, &stack, &agreeing(&stack, &steps), 0, slots + 3);
    }
    v.reason("replays of as many records as can be written out, and the last of them moved");
    let stack = junk(5 * MOST);
    let mut steps = pushes(MOST - 1);
    steps.push(Literal(EXCHANGE));
    let recording = agreeing(&stack, &steps);
    known(v, &stack, &recording, 0, MOST);
    for (byte, field) in [(1, 1), (3, 2), (8, 3)] {
        let mut recording = recording.clone();
        record(&mut recording, MOST - 1)[byte] ^= 4;
        known(v, &stack, &recording, field, MOST - 1);
    }
}
