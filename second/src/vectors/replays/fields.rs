//! The fields of a record in their order, report, depth, top, and its literal.

use super::{agreeing, junk, known, literal_first, pushes_first, record, replay};
use crate::draw::short;
use crate::vectors::Vectors;
use crate::Step::{Literal, Push};

pub fn cases(v: &mut Vectors) {
    v.reason("replays that agree, of every number of records, on any bytes and on zeros");
    for steps in [&pushes_first()[..], &literal_first()] {
        for count in 0..=steps.len() {
            for stack in [junk(17), vec![0; 17]] {
                known(v, &stack, &agreeing(&stack, &steps[..count]), 0, count);
            }
        }
    }
    moved(v);
    every_report(v);
    every_literal(v);
}

fn moved(v: &mut Vectors) {
    v.reason("replays: report, depth and top moved, alone, in pairs and all, in each record");
    let stack = junk(19);
    for steps in [&pushes_first()[..], &literal_first()] {
        let recording = agreeing(&stack, steps);
        for (number, step) in steps.iter().enumerate() {
            for fields in 1..8 {
                let mut recording = recording.clone();
                let bytes = record(&mut recording, number);
                let (report, depth) = (fields & 1 != 0, fields & 2 != 0);
                if report {
                    bytes[1] ^= 1 + (number % 6) as u8;
                }
                if depth {
                    bytes[2] ^= 1 << (number % 3);
                }
                if fields & 4 != 0 {
                    bytes[6] ^= 1;
                }
                match step {
                    _ if report => known(v, &stack, &recording, 1, number),
                    _ if depth => known(v, &stack, &recording, 2, number),
                    Literal(_) => known(v, &stack, &recording, 3, number),
                    // What is pushed is another number, and a later top may differ.
                    Push(_) => drop(replay(v, &stack, &recording)),
                }
            }
        }
    }
}

fn every_report(v: &mut Vectors) {
    v.reason(
        "replays: every byte as the report of a step that is done, and of one that is refused",
    );
    let stack = junk(19);
    for report in 0..=255 {
        let mut recording = agreeing(&stack, &pushes_first()[..4]);
        record(&mut recording, 2)[1] = report;
        let (field, count) = if report == 0 { (0, 4) } else { (1, 2) };
        known(v, &stack, &recording, field, count);
        let mut recording = agreeing(&stack, &literal_first()[..4]);
        record(&mut recording, 0)[1] = report;
        let (field, count) = if report == 2 { (0, 4) } else { (1, 0) };
        known(v, &stack, &recording, field, count);
    }
}

/// Byte 0 is the literal, and 0 is a push.
fn every_literal(v: &mut Vectors) {
    v.reason("replays: every literal, on two numbers; those in no row are report 5");
    let stack = junk(18);
    for literal in 1..=255 {
        let steps = [
            Push(short(6, 0)),
            Push([0x82, 0x40, 0, 0, 1]),
            Literal(literal),
            Push(short(1, 0)),
        ];
        known(v, &stack, &agreeing(&stack, &steps), 0, 4);
    }
    v.reason("replays: each record with another literal, or as a push");
    let recording = agreeing(&stack, &pushes_first());
    for number in 0..8 {
        for literal in [0, 1, 2, 3, 4, 5, 15, 27, 39, 49, 58, 61, 62, 255] {
            let mut recording = recording.clone();
            record(&mut recording, number)[0] = literal;
            replay(v, &stack, &recording);
        }
    }
}
