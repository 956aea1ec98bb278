//! The recordings that stand in the repository, beside those that `record` makes of a sheet.

use super::draw::{recorded, steps};
use crate::draw::{short, well_formed};
use crate::reference::literals::{
    ADD, ALL, DELETE, DIVIDE, DUPLICATE, EXCHANGE, INT, MULTIPLY, NEGATE, RE_STACK, SUBTRACT,
    TRUNCATE,
};
use crate::reference::replay::RECORD;
use crate::rng::Rng;
use crate::sheet::STACK_LEN;
use crate::Step::{self, Literal, Push};

const SEED: u64 = 1982;

/// The record that differs in `deep`.
const DIFFERS: usize = 450;

/// For `replay`: some hundred records that agree, then a depth over 255 without its high byte.
pub fn deep() -> Vec<u8> {
    let mut rng = Rng::new(SEED);
    let mut all: Vec<Step> = (0..290).map(|_| Push(well_formed(&mut rng))).collect();
    all.extend(steps(&mut rng, 210));
    let mut recording = recorded(&mut [0; STACK_LEN], &all);
    let high = &mut recording[RECORD * DIFFERS + 3];
    assert_ne!(*high, 0, "the depth is over 255");
    *high = 0;
    recording
}

/// For `show`: every name, done and refused, literals that are in no row, and a difference at
/// depth 0, where the recording still has a top. What comes after it is not shown.
pub fn every_name() -> Vec<u8> {
    let mut all: Vec<Step> = ALL.map(Literal).to_vec();
    all.extend([Literal(6), Literal(255), Push([0, 0x80, 1, 2, 3])]);
    all.extend([Push(short(10, 0)), Push(short(4, 0)), Literal(DIVIDE)]);
    all.extend([DUPLICATE, INT, EXCHANGE, SUBTRACT, NEGATE].map(Literal));
    all.extend([Push(short(-300, 0x5A)), Literal(RE_STACK)]);
    all.extend([MULTIPLY, TRUNCATE, DUPLICATE, ADD].map(Literal));
    all.extend([Push(short(0, 7)), Literal(DIVIDE), Literal(62)]);
    all.extend([DELETE, INT].map(Literal));
    let differs = all.len();
    all.extend([Literal(DELETE), Push(short(1, 0)), Literal(NEGATE)]);
    let mut recording = recorded(&mut [0; STACK_LEN], &all);
    let (before, record) = recording[RECORD * (differs - 1)..].split_at_mut(RECORD);
    assert_eq!(record[..4], [DELETE, 0, 0, 0]);
    record[4..9].copy_from_slice(&before[4..9]);
    recording
}

/// The same recording with the top of its second subtraction, a short number, one higher.
pub fn one_higher(recording: &[u8]) -> Vec<u8> {
    let mut moved = recording.to_vec();
    let records = moved.as_chunks_mut::<RECORD>().0;
    let second = records.iter_mut().filter(|r| r[0] == SUBTRACT).nth(1);
    second.expect("there are two subtractions")[6] += 1;
    moved
}
