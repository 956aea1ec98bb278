//! Plain optimised Rust for the same calls: what the speed of ours is measured against.
//! Safe Rust with words, machine multiplication and division, shaped for the fewest
//! instructions where that is also quick, and the same answers (tests/plain.rs). What an edition
//! reaches is made once for each, so that neither pays for the other.

mod division;
mod multiplication;
mod number;
mod operate;
mod replay;
mod run;
mod sum;
mod whole;

pub use operate::{operate, operate_in};
pub use replay::replay;
pub use run::{run, run_in};

use crate::reference::{DONE, LIMITS, MALFORMED, NO_ROOM};
use crate::Cell;
use number::{word, Short, Slot};
use std::hint::cold_path;

/// The editions, as the C interface numbers them.
pub const SHIPPED: u8 = 0;
pub const MENDED: u8 = 1;
pub const NO_SUCH_EDITION: u8 = 12;

const LONGEST_STACK: usize = 16_000;
const DEEPEST: usize = LONGEST_STACK / 5;

/// Where the taken slots end, if there are at least so many and the stack is within its
/// limits, with so much room. The depth is looked at first, and then five times it is small:
/// nothing is divided. Each question has its own branch, since joining them costs more.
#[inline(always)]
fn end(len: usize, depth: usize, least: usize, room: usize) -> Option<usize> {
    if depth.wrapping_sub(least) > DEEPEST - least {
        cold_path();
        return None;
    }
    if len > LONGEST_STACK {
        cold_path();
        return None;
    }
    if 5 * depth + room > len {
        cold_path();
        return None;
    }
    Some(5 * depth)
}

/// Report 1 of a stack, asked where something is wrong.
fn beyond_limits(len: usize, depth: usize) -> bool {
    len > LONGEST_STACK || depth > len / 5
}

/// The last bytes before `end`.
#[inline(always)]
fn before<const N: usize>(stack: &mut [u8], end: usize) -> &mut [u8; N] {
    (&mut stack[end - N..end]).try_into().unwrap()
}

#[inline(always)]
pub fn push(stack: &mut [u8], depth: &mut usize, number: &[u8]) -> u8 {
    let len = stack.len();
    let Some(end) = end(len, *depth, 0, 5) else {
        cold_path();
        return if beyond_limits(len, *depth) {
            LIMITS
        } else {
            NO_ROOM
        };
    };
    let Ok(number) = <&Slot>::try_from(number) else {
        cold_path();
        return MALFORMED;
    };
    // b1 is 0 and b2 neither 00 nor FF, asked without a branch for the form.
    let head = u32::from_be_bytes(*number.first_chunk().unwrap());
    if (0x0001_0000..0x00FF_0000).contains(&head) {
        cold_path();
        return MALFORMED;
    }
    *before(stack, end + 5) = *number;
    *depth += 1;
    DONE
}

/// Where the top number starts; `None` for the empty part.
#[inline(always)]
pub fn view(stack: &[u8], depth: usize) -> Option<usize> {
    Some(end(stack.len(), depth, 1, 0)? - 5)
}

#[inline(always)]
pub fn cell(report: u8, stack: &[u8], depth: usize) -> Cell {
    if report != DONE {
        cold_path();
        return Cell::Refused(report);
    }
    let Some(end) = end(stack.len(), depth, 1, 0) else {
        cold_path();
        return if beyond_limits(stack.len(), depth) {
            Cell::Refused(LIMITS)
        } else {
            Cell::Blank
        };
    };
    let top: &Slot = stack[end - 5..end].try_into().unwrap();
    if top[0] == 0 {
        return match Short::load(top) {
            None => Cell::Refused(MALFORMED),
            Some(short) if short.is_odd() => Cell::Odd,
            Some(short) => Cell::Value(f64::from(short.value()).to_bits()),
        };
    }
    // The mantissa's top bit goes without saying in a double too.
    let word = u64::from(word(top));
    let exponent = u64::from(top[0]) + 1023 - 129;
    Cell::Value((word >> 31) << 63 | exponent << 52 | (word & 0x7FFF_FFFF) << 21)
}

#[inline(always)]
pub fn leading_zeros(t: u32) -> u8 {
    t.leading_zeros() as u8
}
