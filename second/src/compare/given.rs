//! What a random call is given.

use super::recordings;
use crate::draw::{self, minus_65536, near};
use crate::rng::Rng;
use crate::text::counted;
use std::fmt;

/// The bytes are boxed: an allocation of exactly their length, where valgrind shows a read
/// past their end.
pub enum Call {
    Operate(u8),
    Push(Box<[u8]>),
    Run(Box<[u8]>),
    /// In the edition of a number, which stands first.
    OperateIn(u8, u8),
    RunIn(u8, Box<[u8]>),
    View,
    Cell(u8),
    Replay(Box<[u8]>),
    /// The stack is not lent.
    LeadingZeros(u32),
}

pub struct Given {
    pub call: Call,
    pub depth: usize,
    pub stack: Vec<u8>,
    /// What stands behind the pointers that a call writes through, so that a write where
    /// none is due is seen.
    pub old_word: usize,
    pub old_byte: u8,
    pub old_bits: u64,
}

impl Given {
    pub fn draw(rng: &mut Rng) -> Given {
        let (call, stack, depth) = if rng.one_in(8) {
            let (stack, recording) = recordings::draw(rng);
            // What the depth's target holds before the call, which does not read it.
            let junk = rng.bits() as usize;
            (Call::Replay(recording), stack, junk)
        } else {
            let (mut stack, depth) = stack(rng);
            near::on_top(rng, 4, &mut stack, depth);
            minus_65536::on_top(rng, 6, &mut stack, depth);
            let call = match rng.below(30) {
                0..=6 => Call::Operate(draw::literal(rng)),
                7..=13 => Call::OperateIn(edition(rng), draw::literal(rng)),
                14..=15 => Call::Push(pushed(rng)),
                16..=18 => Call::Run(list(rng)),
                19..=22 => Call::RunIn(edition(rng), list(rng)),
                23..=24 => Call::View,
                25..=26 => Call::LeadingZeros(draw::of_any_length(rng)),
                _ if rng.one_in(4) => Call::Cell(rng.byte()),
                _ => Call::Cell(0),
            };
            (call, stack, depth)
        };
        Given {
            call,
            depth,
            stack,
            old_word: rng.bits() as usize,
            old_byte: rng.byte(),
            old_bits: rng.bits(),
        }
    }
}

/// Mostly the mended one, which the old calls never are; now and then a number that is none.
fn edition(rng: &mut Rng) -> u8 {
    match rng.below(24) {
        0 => rng.byte(),
        1 => 2,
        2..=7 => 0,
        _ => 1,
    }
}

fn stack(rng: &mut Rng) -> (Vec<u8>, usize) {
    match rng.below(400) {
        0 => long_stack(rng),
        1..=40 => {
            let bytes: Vec<u8> = (0..rng.below(61)).map(|_| rng.byte()).collect();
            let depth = draw::depth(rng, bytes.len() / 5);
            (bytes, depth)
        }
        _ => {
            let slots = match rng.below(4) {
                0 => rng.below(13),
                _ => 2 + rng.below(4),
            } as usize;
            let bytes = draw::stack(rng, slots);
            (bytes, draw::depth(rng, slots))
        }
    }
}

/// About 16,000 bytes, where report 1 begins.
fn long_stack(rng: &mut Rng) -> (Vec<u8>, usize) {
    let len = match rng.below(3) {
        0 => 16_000,
        1 => 15_990 + rng.below(20),
        _ => rng.below(16_100),
    } as usize;
    let mut bytes = draw::stack(rng, len / 5);
    bytes.resize(len, 0x99);
    let depth = draw::depth(rng, len / 5);
    (bytes, depth)
}

fn pushed(rng: &mut Rng) -> Box<[u8]> {
    let mut number = draw::any(rng).to_vec();
    if rng.one_in(5) {
        number.resize(rng.below(8) as usize, 0x2A);
    }
    number.into()
}

/// Mostly short lists; now and then one about 60,000, where report 1 begins.
fn list(rng: &mut Rng) -> Box<[u8]> {
    let count = match rng.below(2_000) {
        0 => 59_998 + rng.below(5),
        1 => rng.below(61_000),
        _ => rng.below(41),
    } as usize;
    if rng.one_in(20) {
        (0..count).map(|_| rng.byte()).collect()
    } else if count > 1_000 {
        // A drawn list of such a length would soon be refused: it copies and deletes.
        (0..count).map(|i| [49, 27, 1, 2][i % 4]).collect()
    } else {
        draw::literals(rng, count).into()
    }
}

impl fmt::Display for Given {
    fn fmt(&self, f: &mut fmt::Formatter) -> fmt::Result {
        let stack = counted(&self.stack);
        match &self.call {
            Call::Operate(literal) => write!(f, "operate, literal {literal}")?,
            Call::Push(number) => write!(f, "push of {}", counted(number))?,
            Call::Run(literals) => write!(f, "run of {}", counted(literals))?,
            Call::OperateIn(edition, literal) => {
                write!(f, "operate in edition {edition}, literal {literal}")?;
            }
            Call::RunIn(edition, literals) => {
                write!(f, "run in edition {edition} of {}", counted(literals))?;
            }
            Call::View => write!(f, "view")?,
            Call::Cell(report) => write!(f, "cell, report {report}")?,
            Call::Replay(recording) => write!(f, "replay of {}", counted(recording))?,
            Call::LeadingZeros(t) => write!(f, "leading zeros of {t:08X}")?,
        }
        write!(
            f,
            "\ndepth {}, stack of {} bytes {stack}",
            self.depth,
            self.stack.len()
        )
    }
}
