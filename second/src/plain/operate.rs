//! One literal in a call of its own. The literal is asked first; each then asks in one go
//! whether all is well with the stack and its depth, and which report it is if not is found
//! out apart.

use super::division::divide;
use super::multiplication::multiply;
use super::number::{negate, re_stack, Slot};
use super::sum::{add, subtract};
use super::whole::{int, truncate};
use super::{before, beyond_limits, end, DEEPEST, LONGEST_STACK, MENDED, NO_SUCH_EDITION, SHIPPED};
use crate::reference::{DONE, LIMITS, NO_ROOM, NO_SUCH_LITERAL, TOO_FEW};
use std::hint::cold_path;
use std::mem::swap;

#[inline(always)]
pub fn operate<const EDITION: u8>(stack: &mut [u8], depth: &mut usize, literal: u8) -> u8 {
    let len = stack.len();
    macro_rules! one {
        ($f:ident) => {
            if let Some(end) = end(len, *depth, 1, 0) {
                return $f::<EDITION>(before(stack, end));
            }
        };
    }
    macro_rules! two {
        ($f:ident) => {
            if let Some(end) = end(len, *depth, 2, 0) {
                return $f::<EDITION>(before(stack, end), depth);
            }
        };
    }
    match literal {
        1 => {
            if let Some(end) = end(len, *depth, 2, 0) {
                let (first, second) = slots(before(stack, end));
                swap(first, second);
                return DONE;
            }
        }
        2 => {
            let below = depth.wrapping_sub(1);
            if below < DEEPEST && len <= LONGEST_STACK && stack.get(5 * below + 4).is_some() {
                *depth = below;
                return DONE;
            }
        }
        3 => two!(subtract_top),
        4 => two!(multiply_top),
        5 => two!(divide_top),
        15 => two!(add_top),
        27 => one!(negate),
        39 => one!(int),
        49 => {
            if let Some(end) = end(len, *depth, 1, 5) {
                let (top, free) = slots(before(stack, end + 5));
                *free = *top;
                *depth += 1;
                return DONE;
            }
        }
        58 => one!(truncate),
        61 => one!(re_stack),
        _ => {}
    }
    cold_path();
    refusal(*depth, len, literal)
}

/// By the edition's number.
#[inline(always)]
pub fn operate_in(edition: u8, stack: &mut [u8], depth: &mut usize, literal: u8) -> u8 {
    if edition == MENDED {
        return operate::<MENDED>(stack, depth, literal);
    }
    if edition != SHIPPED {
        cold_path();
        return NO_SUCH_EDITION;
    }
    operate::<SHIPPED>(stack, depth, literal)
}

#[inline(always)]
fn slots(pair: &mut [u8; 10]) -> (&mut Slot, &mut Slot) {
    let (first, second) = pair.split_at_mut(5);
    (first.try_into().unwrap(), second.try_into().unwrap())
}

/// What is big is a function of its own, reached by a jump, so that what is small saves no
/// registers.
macro_rules! out_of_line {
    ($name:ident, $f:ident) => {
        #[inline(never)]
        fn $name<const EDITION: u8>(pair: &mut [u8; 10], depth: &mut usize) -> u8 {
            let (first, second) = slots(pair);
            let report = $f::<EDITION>(first, second);
            if report == DONE {
                *depth -= 1;
            }
            report
        }
    };
}
out_of_line!(subtract_top, subtract);
out_of_line!(multiply_top, multiply);
out_of_line!(divide_top, divide);
out_of_line!(add_top, add);

/// Which of reports 1, 5, 2 and 4 it is.
#[cold]
#[inline(never)]
fn refusal(depth: usize, len: usize, literal: u8) -> u8 {
    let takes = match literal {
        1 | 3 | 4 | 5 | 15 => 2,
        2 | 27 | 39 | 49 | 58 | 61 => 1,
        _ => 0,
    };
    if beyond_limits(len, depth) {
        LIMITS
    } else if takes == 0 {
        NO_SUCH_LITERAL
    } else if depth < takes {
        TOO_FEW
    } else {
        NO_ROOM
    }
}
