//! Document 02, A5, "Replay of a recorded count": a recording as values, each record held to the
//! one that this machine makes of the same step.

use super::{beyond_limits, slot, step, Edition, DONE, LIMITS};
use crate::{Bytes, Field, ReplayOutcome, Step, ZERO};

/// The number that refuses what is no recording.
pub const NOT_A_RECORDING: u8 = 8;

/// Bytes of a record, and the most that a recording has.
pub const RECORD: usize = 16;
pub const LONGEST_RECORDING: usize = 64_000;

/// A step and what came of it: the report, the depth after it, and the top slot after it, which
/// is zeros at depth 0. Of a push there is no top: the pushed bytes stand in its place.
#[derive(Clone, Copy, Debug, PartialEq, Eq)]
pub struct Record {
    pub step: Step,
    pub report: u8,
    pub depth: usize,
    pub top: Option<Bytes>,
}

impl Record {
    /// Does a step, and records it. A recording is of the shipped edition.
    pub fn of(given: Step, stack: &mut [u8], depth: usize) -> Record {
        let after = step(Edition::Shipped, given, stack, depth);
        let top = match after.depth {
            0 => ZERO,
            _ => slot(stack, after.depth - 1),
        };
        Record {
            step: given,
            report: after.report,
            depth: after.depth,
            top: matches!(given, Step::Literal(_)).then_some(top),
        }
    }

    /// `None` where bytes 9 to 15 are not zero.
    fn read(bytes: &[u8; RECORD]) -> Option<Record> {
        let [literal, report, low, high, b1, b2, b3, b4, b5, rest @ ..] = *bytes;
        let five = [b1, b2, b3, b4, b5];
        let (step, top) = match literal {
            0 => (Step::Push(five), None),
            _ => (Step::Literal(literal), Some(five)),
        };
        (rest == [0; 7]).then_some(Record {
            step,
            report,
            depth: usize::from(low) + 256 * usize::from(high),
            top,
        })
    }

    /// The bytes of a record, which has no literal 0.
    pub fn written(&self) -> [u8; RECORD] {
        let (literal, five) = match self.step {
            Step::Push(number) => (0, number),
            Step::Literal(literal) => (literal, self.top.unwrap_or(ZERO)),
        };
        let (low, high) = (self.depth % 256, self.depth / 256);
        let mut bytes = [0; RECORD];
        bytes[..4].copy_from_slice(&[literal, self.report, low as u8, high as u8]);
        bytes[4..9].copy_from_slice(&five);
        bytes
    }

    /// The first field in which another record of the same step differs.
    pub fn difference(&self, other: &Record) -> Option<Field> {
        if self.report != other.report {
            Some(Field::Report)
        } else if self.depth != other.depth {
            Some(Field::Depth)
        } else if self.top != other.top {
            Some(Field::Top)
        } else {
            None
        }
    }
}

/// The records of a recording; `None` is number 8.
pub fn records(recording: &[u8]) -> Option<Vec<Record>> {
    let (whole, part) = recording.as_chunks();
    if recording.len() > LONGEST_RECORDING || !part.is_empty() {
        return None;
    }
    whole.iter().map(Record::read).collect()
}

pub fn replay(stack: &mut [u8], recording: &[u8]) -> ReplayOutcome {
    let mut now = ReplayOutcome {
        report: DONE,
        count: 0,
        field: None,
        depth: 0,
    };
    if beyond_limits(stack, 0) {
        now.report = LIMITS;
        return now;
    }
    let Some(records) = records(recording) else {
        now.report = NOT_A_RECORDING;
        return now;
    };
    for record in records {
        let made = Record::of(record.step, stack, now.depth);
        now.depth = made.depth;
        now.field = record.difference(&made);
        if now.field.is_some() {
            break;
        }
        now.count += 1;
    }
    now
}
