//! A list of literals: a loop with every literal inlined, over slots that are counted once,
//! with the depth in a register.

use super::division::divide;
use super::multiplication::multiply;
use super::number::{negate, re_stack, Slot};
use super::sum::{add, subtract};
use super::whole::{int, truncate};
use super::{beyond_limits, MENDED, NO_SUCH_EDITION, SHIPPED};
use crate::reference::{DONE, LIMITS, NO_ROOM, NO_SUCH_LITERAL, TOO_FEW};
use std::mem::swap;

const LONGEST_RUN: usize = 60_000;

#[inline(always)]
pub fn run<const EDITION: u8>(
    stack: &mut [u8],
    depth: &mut usize,
    literals: &[u8],
    position: &mut usize,
) -> u8 {
    *position = 0;
    if literals.len() > LONGEST_RUN || beyond_limits(stack.len(), *depth) {
        return LIMITS;
    }
    let slots = stack.as_chunks_mut().0;
    let mut now = *depth;
    let mut last = DONE;
    let mut done = literals.len();
    for (i, &literal) in literals.iter().enumerate() {
        let (report, after) = step::<EDITION>(slots, now, literal);
        now = after;
        if report != DONE {
            last = report;
            done = i;
            break;
        }
    }
    *depth = now;
    *position = done;
    last
}

/// By the edition's number.
#[inline(always)]
pub fn run_in(
    edition: u8,
    stack: &mut [u8],
    depth: &mut usize,
    literals: &[u8],
    position: &mut usize,
) -> u8 {
    match edition {
        SHIPPED => run_apart::<SHIPPED>(stack, depth, literals, position),
        MENDED => run_apart::<MENDED>(stack, depth, literals, position),
        _ => {
            *position = 0;
            NO_SUCH_EDITION
        }
    }
}

/// A loop in a function of its own: two of them in one would share its registers.
#[inline(never)]
fn run_apart<const EDITION: u8>(
    stack: &mut [u8],
    depth: &mut usize,
    literals: &[u8],
    position: &mut usize,
) -> u8 {
    run::<EDITION>(stack, depth, literals, position)
}

/// The report, and the depth after it.
#[inline(always)]
pub fn step<const EDITION: u8>(slots: &mut [Slot], depth: usize, literal: u8) -> (u8, usize) {
    macro_rules! one {
        ($f:ident) => {
            match slots.get_mut(depth.wrapping_sub(1)) {
                Some(top) => ($f::<EDITION>(top), depth),
                None => (TOO_FEW, depth),
            }
        };
    }
    macro_rules! two {
        ($f:ident) => {
            match slots.get_mut(depth.wrapping_sub(2)..depth) {
                Some([first, second]) => match $f::<EDITION>(first, second) {
                    DONE => (DONE, depth - 1),
                    report => (report, depth),
                },
                _ => (TOO_FEW, depth),
            }
        };
    }
    match literal {
        0 => (no_such_literal(depth), depth),
        1 => match slots.get_mut(depth.wrapping_sub(2)..depth) {
            Some([first, second]) => {
                swap(first, second);
                (DONE, depth)
            }
            _ => (TOO_FEW, depth),
        },
        2 => match depth {
            0 => (TOO_FEW, depth),
            _ => (DONE, depth - 1),
        },
        3 => two!(subtract),
        4 => two!(multiply),
        5 => two!(divide),
        15 => two!(add),
        27 => one!(negate),
        39 => one!(int),
        49 => match slots.get_mut(depth.wrapping_sub(1)..) {
            Some([top, free, ..]) => {
                *free = *top;
                (DONE, depth + 1)
            }
            Some(_) => (NO_ROOM, depth),
            None => (TOO_FEW, depth),
        },
        58 => one!(truncate),
        61 => one!(re_stack),
        _ => (NO_SUCH_LITERAL, depth),
    }
}

/// Literal 0, by a function that the compiler can't tell from another answer: with an entry of its
/// own, the literal is the index of the jump table as it is.
#[cold]
#[inline(never)]
fn no_such_literal(depth: usize) -> u8 {
    if depth > usize::MAX / 5 {
        LIMITS
    } else {
        NO_SUCH_LITERAL
    }
}
