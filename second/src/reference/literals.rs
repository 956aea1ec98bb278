//! Document 01, "Literals", with A1's multiplication: each takes numbers off the top and leaves
//! numbers there.

use super::addition::{add, subtract};
use super::division::divide;
use super::edition::Edition;
use super::multiplication::multiply;
use super::number::{form, negate, re_stack, Form};
use super::truncation::{int, truncate};
use crate::Bytes;

pub const EXCHANGE: u8 = 1;
pub const DELETE: u8 = 2;
pub const SUBTRACT: u8 = 3;
pub const MULTIPLY: u8 = 4;
pub const DIVIDE: u8 = 5;
pub const ADD: u8 = 15;
pub const NEGATE: u8 = 27;
pub const INT: u8 = 39;
pub const DUPLICATE: u8 = 49;
pub const TRUNCATE: u8 = 58;
pub const RE_STACK: u8 = 61;

pub const ALL: [u8; 11] = [
    EXCHANGE, DELETE, SUBTRACT, MULTIPLY, DIVIDE, ADD, NEGATE, INT, DUPLICATE, TRUNCATE, RE_STACK,
];

/// The ROM's names, in the order of `ALL`.
pub const NAMES: [&str; 11] = [
    "exchange",
    "delete",
    "subtract",
    "multiply",
    "divide",
    "add",
    "negate",
    "int",
    "duplicate",
    "truncate",
    "re-stack",
];

/// How many numbers a literal takes; `None` for a byte that is no literal.
pub fn takes(literal: u8) -> Option<usize> {
    match literal {
        EXCHANGE | SUBTRACT | MULTIPLY | DIVIDE | ADD => Some(2),
        DELETE | NEGATE | INT | DUPLICATE | TRUNCATE | RE_STACK => Some(1),
        _ => None,
    }
}

/// Whether a literal looks at the form of what it takes.
pub fn reads_numbers(literal: u8) -> bool {
    !matches!(literal, EXCHANGE | DELETE | DUPLICATE)
}

pub fn malformed(b: Bytes) -> bool {
    form(b) == Form::Malformed
}

/// Whether such a literal refuses it with report 3. A3: in the mended edition odd is malformed too,
/// as an operand; everything else takes it as before.
pub fn malformed_operand(edition: Edition, b: Bytes) -> bool {
    match edition {
        Edition::Shipped => malformed(b),
        Edition::Mended => malformed(b) || form(b) == Form::Odd,
    }
}

/// What a literal leaves in place of `taken`, lowest first; `None` is report 6.
pub fn leaves(edition: Edition, literal: u8, taken: &[Bytes]) -> Option<Vec<Bytes>> {
    Some(match (literal, taken) {
        (EXCHANGE, &[first, second]) => vec![second, first],
        (DELETE, _) => vec![],
        (SUBTRACT, &[first, second]) => vec![subtract(edition, first, second)?],
        (MULTIPLY, &[first, second]) => vec![multiply(first, second)?],
        (DIVIDE, &[first, second]) => vec![divide(edition, first, second)?],
        (ADD, &[first, second]) => vec![add(edition, first, second)?],
        (NEGATE, &[x]) => vec![negate(x)],
        (INT, &[x]) => vec![int(edition, x)?],
        (DUPLICATE, &[x]) => vec![x, x],
        (TRUNCATE, &[x]) => vec![truncate(edition, x)],
        (RE_STACK, &[x]) => vec![re_stack(x)],
        _ => unreachable!("literal {literal} does not take {} numbers", taken.len()),
    })
}
