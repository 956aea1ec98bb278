//! Refusals among the records: one that agrees changes nothing, and the replay goes on.

use super::{agreeing, junk, known, record, replay, BAD};
use crate::draw::short;
use crate::reference::literals::{
    ADD, ALL, DELETE, DIVIDE, DUPLICATE, EXCHANGE, MULTIPLY, NEGATE, RE_STACK,
};
use crate::reference::replay::RECORD;
use crate::vectors::Vectors;
use crate::Step::{self, Literal, Push};

const HUGE: [u8; 5] = [0xFF, 0x7F, 0xFF, 0xFF, 0xFF];

/// On three slots: every report that a step of a replay can have, 3 by a push alone, since no
/// malformed number comes onto the stack.
fn every_report() -> Vec<Step> {
    vec![
        Literal(DELETE),
        Literal(6),
        Push(BAD),
        Push(short(7, 0)),
        Literal(ADD),
        Push(short(0, 0x5A)),
        Literal(DIVIDE),
        Push(HUGE),
        Push(short(2, 0)),
        Push(BAD),
        Literal(DUPLICATE),
        Literal(62),
        Literal(EXCHANGE),
        Literal(DELETE),
        Literal(DUPLICATE),
        Literal(MULTIPLY),
        Literal(ADD),
        Literal(NEGATE),
        Literal(DELETE),
        Literal(DELETE),
        Literal(EXCHANGE),
        Literal(RE_STACK),
        Literal(DELETE),
        Push(short(1, 0)),
    ]
}

pub fn cases(v: &mut Vectors) {
    agreed(v);
    done_where_it_was_refused(v);
    refused_where_it_was_done(v);
}

fn agreed(v: &mut Vectors) {
    v.reason("replays: refusals of each report that agree, and every beginning of that recording");
    let stack = junk(16);
    let steps = every_report();
    let recording = agreeing(&stack, &steps);
    let reports: Vec<u8> = recording.chunks(RECORD).map(|record| record[1]).collect();
    for report in [0, 2, 3, 4, 5, 6] {
        assert!(reports.contains(&report), "report {report}");
    }
    for count in 1..=steps.len() {
        known(v, &stack, &recording[..RECORD * count], 0, count);
    }
    v.reason("replays: each of these records with another report");
    for (number, &own) in reports.iter().enumerate() {
        for report in (0..=8).chain([255]).filter(|&report| report != own) {
            let mut recording = recording.clone();
            record(&mut recording, number)[1] = report;
            known(v, &stack, &recording, 1, number);
        }
    }
    v.reason(
        "replays: each of these records with another depth, and each literal with another top",
    );
    for (number, step) in steps.iter().enumerate() {
        let mut deeper = recording.clone();
        record(&mut deeper, number)[2] += 1;
        known(v, &stack, &deeper, 2, number);
        let mut other = recording.clone();
        record(&mut other, number)[7] ^= 0x10;
        if matches!(step, Literal(_)) {
            known(v, &stack, &other, 3, number);
        }
    }
}

/// The machine does what the recording says was refused: it differs in the report, and is done.
fn done_where_it_was_refused(v: &mut Vectors) {
    v.reason("replays: each literal recorded as refused, where it is done");
    let stack = junk(17);
    let two = [Push(short(6, 0)), Push(short(2, 0))];
    let mut before = agreeing(&stack, &two);
    for literal in ALL {
        for report in 1..=6 {
            let mut recording = before.clone();
            // As a refusal is recorded: the depth and the top stay.
            recording.extend([literal, report, 2, 0, 0, 0, 2, 0, 0]);
            recording.resize(3 * RECORD, 0);
            recording.extend(&before[..RECORD]);
            known(v, &stack, &recording, 1, 2);
        }
    }
    v.reason("replays: a push recorded as refused, where it is done");
    for report in 1..=6 {
        let mut recording = before.clone();
        recording.extend([0, report, 2, 0, 0, 0, 3, 0, 0]);
        recording.resize(3 * RECORD, 0);
        known(v, &stack, &recording, 1, 2);
        record(&mut before, 1)[1] = report;
        known(v, &stack, &before, 1, 1);
        record(&mut before, 1)[1] = 0;
    }
}

/// The machine refuses what the recording says was done.
fn refused_where_it_was_done(v: &mut Vectors) {
    v.reason(
        "replays: each literal recorded as done at depth 0 and at 1, where it is refused or not",
    );
    let stack = junk(14);
    let one = agreeing(&stack, &[Push(short(9, 0))]);
    for literal in ALL.into_iter().chain([6, 255]) {
        for (before, depth) in [(&[][..], 0), (&[], 1), (&one, 1), (&one, 2)] {
            let mut recording = before.to_vec();
            recording.extend([literal, 0, depth, 0, 0, 0, 9, 0, 0]);
            recording.resize(before.len() + RECORD, 0);
            recording.extend(&one);
            replay(v, &stack, &recording);
        }
    }
    v.reason("replays: a division by zero, a sum too big, a malformed push, and no room, recorded as done");
    let stack = junk(12);
    for (steps, depth) in [
        ([Push(short(9, 0)), Push(short(0, 0)), Literal(DIVIDE)], 1),
        ([Push(HUGE), Push(HUGE), Literal(ADD)], 1),
        ([Push(HUGE), Push(short(2, 0)), Literal(MULTIPLY)], 1),
        ([Push(short(9, 0)), Push(short(1, 0)), Push(short(1, 0))], 3),
        (
            [Push(short(9, 0)), Push(short(1, 0)), Literal(DUPLICATE)],
            3,
        ),
        ([Push(short(9, 0)), Literal(NEGATE), Push(BAD)], 2),
    ] {
        let mut recording = agreeing(&stack, &steps);
        known(v, &stack, &recording, 0, 3);
        record(&mut recording, 2)[2] = depth;
        known(v, &stack, &recording, 2, 2);
        record(&mut recording, 2)[1] = 0;
        known(v, &stack, &recording, 1, 2);
    }
}
