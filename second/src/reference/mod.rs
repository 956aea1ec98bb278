//! The second implementation, from document 01 and A1 to A5 of document 02: exact whole numbers on
//! i128. The calls here are document 01's "Reports, and which comes first"; each other module is one
//! of its headings, which A2 and A3 amend and A4 adds a call to, or A1, A3 or A5.

pub mod addition;
pub mod cell;
pub mod division;
pub mod edition;
pub mod ending;
pub mod literals;
pub mod multiplication;
pub mod number;
pub mod replay;
pub mod truncation;

use crate::{Bytes, Outcome, RunOutcome, Step};
pub use cell::{cell, view};
pub use edition::Edition;
pub use ending::leading_zeros;
pub use replay::replay;

pub const DONE: u8 = 0;
pub const LIMITS: u8 = 1;
pub const TOO_FEW: u8 = 2;
pub const MALFORMED: u8 = 3;
pub const NO_ROOM: u8 = 4;
pub const NO_SUCH_LITERAL: u8 = 5;
pub const TOO_BIG: u8 = 6;

/// Refuses an edition's number that no edition has.
pub const NO_SUCH_EDITION: u8 = 12;

const LONGEST_STACK: usize = 16_000;
const LONGEST_RUN: usize = 60_000;

/// Whether so many slots are within the stack; on u128, where no depth overflows.
fn holds(stack: &[u8], slots: u128) -> bool {
    5 * slots <= stack.len() as u128
}

/// Report 1, the list of literals aside.
pub fn beyond_limits(stack: &[u8], depth: usize) -> bool {
    stack.len() > LONGEST_STACK || !holds(stack, depth as u128)
}

pub fn slot(stack: &[u8], i: usize) -> Bytes {
    stack[5 * i..5 * i + 5].try_into().unwrap()
}

fn store(stack: &mut [u8], i: usize, number: Bytes) {
    stack[5 * i..5 * i + 5].copy_from_slice(&number);
}

/// What a literal leaves from which slot on, or the report that refuses it. Nothing is
/// written here, so a refusal changes no byte.
fn decide(
    edition: Edition,
    stack: &[u8],
    depth: usize,
    literal: u8,
) -> Result<(usize, Vec<Bytes>), u8> {
    if beyond_limits(stack, depth) {
        return Err(LIMITS);
    }
    let Some(takes) = literals::takes(literal) else {
        return Err(NO_SUCH_LITERAL);
    };
    if depth < takes {
        return Err(TOO_FEW);
    }
    if literal == literals::DUPLICATE && !holds(stack, depth as u128 + 1) {
        return Err(NO_ROOM);
    }
    let lowest = depth - takes;
    let taken: Vec<Bytes> = (lowest..depth).map(|i| slot(stack, i)).collect();
    let refused = |&b: &Bytes| literals::malformed_operand(edition, b);
    if literals::reads_numbers(literal) && taken.iter().any(refused) {
        return Err(MALFORMED);
    }
    let left = literals::leaves(edition, literal, &taken).ok_or(TOO_BIG)?;
    Ok((lowest, left))
}

/// Of the shipped edition, as where none is named.
pub fn operate(stack: &mut [u8], depth: usize, literal: u8) -> Outcome {
    operate_of(Edition::Shipped, stack, depth, literal)
}

/// By the edition's number. One that there is none of is refused before all else.
pub fn operate_in(edition: u8, stack: &mut [u8], depth: usize, literal: u8) -> Outcome {
    match Edition::numbered(edition) {
        Some(edition) => operate_of(edition, stack, depth, literal),
        None => Outcome {
            report: NO_SUCH_EDITION,
            depth,
        },
    }
}

pub fn operate_of(edition: Edition, stack: &mut [u8], depth: usize, literal: u8) -> Outcome {
    match decide(edition, stack, depth, literal) {
        Err(report) => Outcome { report, depth },
        Ok((lowest, left)) => {
            for (i, number) in left.iter().enumerate() {
                store(stack, lowest + i, *number);
            }
            Outcome {
                report: DONE,
                depth: lowest + left.len(),
            }
        }
    }
}

/// The same in either edition.
pub fn push(stack: &mut [u8], depth: usize, number: &[u8]) -> Outcome {
    let refusal = |report| Outcome { report, depth };
    if beyond_limits(stack, depth) {
        return refusal(LIMITS);
    }
    if !holds(stack, depth as u128 + 1) {
        return refusal(NO_ROOM);
    }
    match Bytes::try_from(number) {
        Ok(number) if !literals::malformed(number) => {
            store(stack, depth, number);
            Outcome {
                report: DONE,
                depth: depth + 1,
            }
        }
        _ => refusal(MALFORMED),
    }
}

/// A literal, or a push.
pub fn step(edition: Edition, step: Step, stack: &mut [u8], depth: usize) -> Outcome {
    match step {
        Step::Push(number) => push(stack, depth, &number),
        Step::Literal(literal) => operate_of(edition, stack, depth, literal),
    }
}

/// Of the shipped edition, as where none is named.
pub fn run(stack: &mut [u8], depth: usize, list: &[u8]) -> RunOutcome {
    run_of(Edition::Shipped, stack, depth, list)
}

/// By the edition's number, as `operate_in`.
pub fn run_in(edition: u8, stack: &mut [u8], depth: usize, list: &[u8]) -> RunOutcome {
    match Edition::numbered(edition) {
        Some(edition) => run_of(edition, stack, depth, list),
        None => RunOutcome {
            report: NO_SUCH_EDITION,
            position: 0,
            depth,
        },
    }
}

pub fn run_of(edition: Edition, stack: &mut [u8], depth: usize, list: &[u8]) -> RunOutcome {
    let mut now = RunOutcome {
        report: DONE,
        position: 0,
        depth,
    };
    if beyond_limits(stack, depth) || list.len() > LONGEST_RUN {
        now.report = LIMITS;
        return now;
    }
    for &literal in list {
        let step = operate_of(edition, stack, now.depth, literal);
        now.report = step.report;
        if step.report != DONE {
            break;
        }
        now.depth = step.depth;
        now.position += 1;
    }
    now
}
