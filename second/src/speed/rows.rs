//! What is measured, a row each: operands drawn from fixed seeds, none of them refused but some
//! of a replay. The rows that name an edition have the operands of those that name none; the
//! mended run has its own.

use super::counted;
use super::operands::{accepted, near, operand, Mix, STACKS};
use super::work::{Call, Stacks, Work};
use crate::draw;
use crate::plain::{self, MENDED, SHIPPED};
use crate::reference::{
    self,
    literals::{reads_numbers, ALL, DIVIDE, DUPLICATE, NAMES, NEGATE, SUBTRACT},
    number::ODD,
};
use crate::rng::Rng;
use crate::{Bytes, Outcome};

/// The run's stack and its length.
const RUN_SLOTS: usize = 64;
const RUN_DEPTH: usize = 32;
const RUN_LENGTH: usize = 10_000;
/// What the name of a row begins with whose calls name the edition.
const BY_NAME: &str = "shipped by name, ";
const IN_MENDED: &str = "mended ";
/// The deepest stack there is.
const DEEPEST: usize = 3_200;

pub fn all() -> Vec<Work> {
    let mut rng = Rng::new(48);
    // Of A4's rows alone: the operands of the others stay as they were before it.
    let mut a4 = Rng::new(1984);
    let mut all = Vec::new();
    let (mut by_name, mut mended) = (Vec::new(), Vec::new());
    for (literal, name) in ALL.into_iter().zip(NAMES) {
        let mut rows = vec![literal_row(&mut rng, literal, name, Mix::Any)];
        if reads_numbers(literal) {
            rows.push(literal_row(&mut rng, literal, name, Mix::Short));
            rows.push(literal_row(&mut rng, literal, name, Mix::Full));
            if literal == DIVIDE {
                by_name.push(naming(SHIPPED, literal, &rows[0]));
            }
            mended.extend(rows.iter().map(|row| naming(MENDED, literal, row)));
        }
        all.extend(rows);
        match literal {
            SUBTRACT => {
                all.extend([8, 16, 24, 31].map(|bits| cancelling(&mut rng, bits)));
                all.push(near_numbers(&mut a4));
            }
            DIVIDE => all.extend(divisions(&mut rng)),
            _ => {}
        }
    }
    let stacks = stacks(&mut rng, NEGATE, Mix::Any);
    let numbers = (0..stacks.count()).flat_map(|_| operand(&mut rng, Mix::Any));
    let push = Call::Push(numbers.collect());
    for (name, call) in [("push", push), ("view", Call::View), ("cell", Call::Cell)] {
        all.push(Work {
            name: name.to_string(),
            promised: true,
            call,
            stacks: stacks.clone(),
        });
    }
    all.push(leading_zeros(&mut a4));
    let (literals, stacks) = mixed_run(&mut rng, operate_shipped);
    let call = Call::RunIn(SHIPPED, literals.clone());
    by_name.push(run_row(BY_NAME, call, stacks.clone()));
    all.push(Work {
        promised: true,
        ..run_row("", Call::Run(literals), stacks)
    });
    all.push(counted::replay(&mut rng));
    let (literals, stacks) = mixed_run(&mut rng, operate_mended);
    mended.push(run_row(IN_MENDED, Call::RunIn(MENDED, literals), stacks));
    for work in &mended {
        let slots = work.stacks.bytes.as_chunks().0;
        let is_odd = |slot: &Bytes| slot[..4] == ODD[..4];
        assert!(!slots.iter().any(is_odd), "{}: an odd operand", work.name);
    }
    all.extend(by_name);
    all.extend(mended);
    all
}

/// Of four slots, two of them taken.
fn stacks(rng: &mut Rng, literal: u8, mix: Mix) -> Stacks {
    accepted(literal, || [(); 4].map(|()| operand(rng, mix)))
}

fn literal_row(rng: &mut Rng, literal: u8, name: &str, mix: Mix) -> Work {
    let words = match mix {
        Mix::Any => "",
        Mix::Short => ", short only",
        Mix::Full => ", full only",
    };
    Work {
        name: format!("{literal} {name}{words}"),
        promised: true,
        call: Call::Operate(literal),
        stacks: stacks(rng, literal, mix),
    }
}

/// A literal's row again, by a call that names its edition.
fn naming(edition: u8, literal: u8, row: &Work) -> Work {
    let words = match edition {
        SHIPPED => BY_NAME,
        _ => IN_MENDED,
    };
    Work {
        name: format!("{words}{}", row.name),
        promised: false,
        call: Call::OperateIn(edition, literal),
        stacks: row.stacks.clone(),
    }
}

fn cancelling(rng: &mut Rng, bits: u32) -> Work {
    Work {
        name: format!("{SUBTRACT} subtract, {bits} bits cancelled"),
        promised: true,
        call: Call::Operate(SUBTRACT),
        stacks: accepted(SUBTRACT, || near(rng, bits)),
    }
}

/// The same with 1 to 31 bits, drawn for each stack.
fn near_numbers(rng: &mut Rng) -> Work {
    let drawn = || {
        let bits = 1 + rng.below(31) as u32;
        near(rng, bits)
    };
    Work {
        name: format!("{SUBTRACT} subtract, near numbers"),
        promised: true,
        call: Call::Operate(SUBTRACT),
        stacks: accepted(SUBTRACT, drawn),
    }
}

fn leading_zeros(rng: &mut Rng) -> Work {
    let words = (0..STACKS).map(|_| draw::of_any_length(rng));
    Work {
        name: "leading zeros".to_string(),
        promised: true,
        call: Call::LeadingZeros(words.collect()),
        stacks: Stacks {
            bytes: vec![],
            step: 1,
            len: 0,
            depth: 0,
        },
    }
}

/// The same divisions at depth 2 and at the deepest, where each stack reaches back over the
/// operands of the calls before it.
fn divisions(rng: &mut Rng) -> [Work; 2] {
    let pairs = accepted(DIVIDE, || [(); 2].map(|()| operand(rng, Mix::Any)));
    let below = (2..DEEPEST).flat_map(|_| operand(rng, Mix::Any));
    let deep = Stacks {
        bytes: below.chain(pairs.bytes.iter().copied()).collect(),
        step: pairs.step,
        len: 5 * DEEPEST,
        depth: DEEPEST,
    };
    [("2", pairs), ("3,200", deep)].map(|(depth, stacks)| Work {
        name: format!("{DIVIDE} divide at depth {depth}"),
        promised: true,
        call: Call::Operate(DIVIDE),
        stacks,
    })
}

fn operate_shipped(stack: &mut [u8], depth: usize, literal: u8) -> Outcome {
    reference::operate(stack, depth, literal)
}

fn operate_mended(stack: &mut [u8], depth: usize, literal: u8) -> Outcome {
    let mut after = depth;
    let report = plain::operate::<MENDED>(stack, &mut after, literal);
    Outcome {
        report,
        depth: after,
    }
}

/// A run of mixed literals, of which none is refused by the edition whose literals these are, and
/// its stack.
fn mixed_run(rng: &mut Rng, operate: fn(&mut [u8], usize, u8) -> Outcome) -> (Vec<u8>, Stacks) {
    let slots = (0..RUN_SLOTS).flat_map(|_| operand(rng, Mix::Any));
    let bytes: Vec<u8> = slots.collect();
    let mut stack = bytes.clone();
    let mut depth = RUN_DEPTH;
    let mut literals = Vec::with_capacity(RUN_LENGTH);
    while literals.len() < RUN_LENGTH {
        // Duplicate makes up for the literals that take one away.
        let literal = if rng.one_in(4) {
            DUPLICATE
        } else {
            rng.pick(&ALL)
        };
        let outcome = operate(&mut stack, depth, literal);
        if outcome.report == reference::DONE {
            depth = outcome.depth;
            literals.push(literal);
        }
    }
    let stacks = Stacks {
        len: bytes.len(),
        step: bytes.len(),
        bytes,
        depth: RUN_DEPTH,
    };
    (literals, stacks)
}

fn run_row(words: &str, call: Call, stacks: Stacks) -> Work {
    Work {
        name: format!("{words}run of 10,000 mixed literals, a literal"),
        promised: false,
        call,
        stacks,
    }
}
