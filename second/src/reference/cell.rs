//! Document 01's view and display cell (end of "Reports, and which comes first").

use super::number::{form, length, pow2, re_stacked, Form, Scaled};
use super::{beyond_limits, slot, DONE, LIMITS, MALFORMED};
use crate::Cell;

/// Where the top number's five bytes start; `None` for the empty part.
pub fn view(stack: &[u8], depth: usize) -> Option<usize> {
    if beyond_limits(stack, depth) || depth == 0 {
        None
    } else {
        Some(5 * (depth - 1))
    }
}

pub fn cell(report: u8, stack: &[u8], depth: usize) -> Cell {
    if report != DONE {
        return Cell::Refused(report);
    }
    if beyond_limits(stack, depth) {
        return Cell::Refused(LIMITS);
    }
    if depth == 0 {
        return Cell::Blank;
    }
    let top = slot(stack, depth - 1);
    match form(top) {
        Form::Malformed => Cell::Refused(MALFORMED),
        Form::Odd => Cell::Odd,
        Form::Short(_) | Form::Full(_) => Cell::Value(double_bits(re_stacked(top))),
    }
}

/// The double of exactly this value, put together from its parts: sign, exponent with its
/// bias of 1023, and the 52 digits below the leading one. Any number here is exact and
/// normal: 32 digits, and a magnitude from 2^-128 to below 2^127.
fn double_bits(number: Scaled) -> u64 {
    if number.units == 0 {
        return 0;
    }
    let magnitude = number.units.abs();
    let below_leading = length(magnitude) - 1;
    let exponent = i128::from(number.exponent) - 160 + i128::from(below_leading) + 1023;
    let fraction = (magnitude - pow2(below_leading)) * pow2(52 - below_leading);
    let sign = if number.units < 0 { pow2(63) } else { 0 };
    (sign + exponent * pow2(52) + fraction) as u64
}
