//! A piece of work: calls of one kind, and the stacks they are made on.

use super::calls::Calls;
use crate::reference::replay::RECORD;
use std::hint::black_box;

pub enum Call {
    Operate(u8),
    /// In the edition of that number.
    OperateIn(u8, u8),
    /// Five bytes for each stack, in memory of their own.
    Push(Vec<u8>),
    View,
    Cell,
    /// These literals in one call.
    Run(Vec<u8>),
    /// In the edition of that number.
    RunIn(u8, Vec<u8>),
    /// This recording in one call.
    Replay(Vec<u8>),
    /// Of each of these. There is no stack.
    LeadingZeros(Vec<u32>),
}

/// So many stacks: the i-th is the `len` bytes from `i * step` on. A call borrows its own
/// stack alone, so those of different calls may share bytes.
#[derive(Clone)]
pub struct Stacks {
    pub bytes: Vec<u8>,
    pub step: usize,
    pub len: usize,
    pub depth: usize,
}

pub struct Work {
    pub name: String,
    /// Whether the ratio of this row is one that is promised.
    pub promised: bool,
    pub call: Call,
    pub stacks: Stacks,
}

/// What a pass changes.
#[derive(Default, PartialEq)]
pub struct Area {
    bytes: Vec<u8>,
    depths: Vec<usize>,
    answers: usize,
    start: usize,
    refused: u8,
    value: f64,
}

impl Stacks {
    pub fn count(&self) -> usize {
        (self.bytes.len() - self.len) / self.step + 1
    }
}

impl Work {
    pub fn operations(&self) -> usize {
        match &self.call {
            Call::Run(literals) | Call::RunIn(_, literals) => literals.len(),
            Call::Replay(recording) => recording.len() / RECORD,
            Call::LeadingZeros(words) => words.len(),
            _ => self.stacks.count(),
        }
    }

    /// Every stack and depth as before the first call. This is done before a pass and is no
    /// part of what is measured: laid just before its call, an operand would be read while
    /// its store is still under way, and how long that takes depends on the widths of both.
    pub fn lay(&self, area: &mut Area) {
        area.bytes.clone_from(&self.stacks.bytes);
        area.depths.clear();
        area.depths.resize(self.stacks.count(), self.stacks.depth);
        area.answers = 0;
    }

    /// Once over the work on one side: calls and nothing else, by the same code for every side.
    #[inline(never)]
    pub fn pass(&self, area: &mut Area, calls: &Calls) {
        let calls = black_box(calls);
        let (step, len) = (self.stacks.step, self.stacks.len);
        let stacks = area.bytes.as_mut_ptr();
        let mut answers = 0;
        // SAFETY: the pointers are lent for each call with the length of what they point to,
        // and a call's objects do not overlap.
        unsafe {
            match &self.call {
                Call::Operate(literal) => {
                    for (i, depth) in area.depths.iter_mut().enumerate() {
                        let at = stacks.add(i * step);
                        answers += usize::from((calls.operate)(at, len, depth, *literal));
                    }
                }
                Call::OperateIn(edition, literal) => {
                    for (i, depth) in area.depths.iter_mut().enumerate() {
                        let at = stacks.add(i * step);
                        let report = (calls.operate_in)(*edition, at, len, depth, *literal);
                        answers += usize::from(report);
                    }
                }
                Call::Push(numbers) => {
                    for (i, depth) in area.depths.iter_mut().enumerate() {
                        let (at, number) = (stacks.add(i * step), numbers.as_ptr().add(5 * i));
                        answers += usize::from((calls.push)(at, len, depth, number, 5));
                    }
                }
                Call::View => {
                    for (i, depth) in area.depths.iter().enumerate() {
                        let at = stacks.add(i * step);
                        answers += (calls.view)(at, len, *depth, &mut area.start);
                    }
                }
                Call::Cell => {
                    let (refused, value) = (&mut area.refused, &mut area.value);
                    for (i, depth) in area.depths.iter().enumerate() {
                        let at = stacks.add(i * step);
                        let kind = (calls.cell)(0, at, len, *depth, refused, value);
                        answers += usize::from(kind);
                    }
                }
                Call::Run(literals) => {
                    let (list, count) = (literals.as_ptr(), literals.len());
                    let (depth, position) = (&mut area.depths[0], &mut area.start);
                    let report = (calls.run)(stacks, len, depth, list, count, position);
                    answers += usize::from(report);
                }
                Call::RunIn(edition, literals) => {
                    let (list, count) = (literals.as_ptr(), literals.len());
                    let (depth, position) = (&mut area.depths[0], &mut area.start);
                    let report =
                        (calls.run_in)(*edition, stacks, len, depth, list, count, position);
                    answers += usize::from(report);
                }
                Call::Replay(recording) => {
                    let (records, length) = (recording.as_ptr(), recording.len());
                    let (count, field) = (&mut area.start, &mut area.refused);
                    let depth = &mut area.depths[0];
                    let report = (calls.replay)(stacks, len, records, length, count, field, depth);
                    answers += usize::from(report);
                }
                Call::LeadingZeros(words) => {
                    for &t in words {
                        answers += usize::from((calls.leading_zeros)(t));
                    }
                }
            }
        }
        area.answers = answers;
    }
}
