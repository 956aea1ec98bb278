//! Document 02's A3, the mended edition: its three places in both editions, odd operands, numbers
//! that are no edition, and that a run is of its edition throughout.

mod lines;
mod numbers;
mod odd;
mod paper;
mod quotients;
mod random;
mod runs;
mod sums;
mod whole;

use super::Vectors;
use crate::case::After;
use crate::Bytes;

/// The editions as the C interface numbers them.
const SHIPPED: u8 = 0;
const MENDED: u8 = 1;
const BOTH: [u8; 2] = [SHIPPED, MENDED];

const ODD: Bytes = [0, 0xFF, 0, 0, 0];
const MINUS_65536: Bytes = [0x91, 0x80, 0, 0, 0];

/// One literal in the one edition and in the other.
fn in_both(v: &mut Vectors, literal: u8, operands: &[Bytes]) {
    for edition in BOTH {
        v.operate_in(edition, literal, operands);
    }
}

/// The same, where it is known what each leaves, or which report it gives.
fn known(v: &mut Vectors, literal: u8, operands: &[Bytes], answers: [Result<Bytes, u8>; 2]) {
    for (edition, expected) in BOTH.into_iter().zip(answers) {
        let after = v.operate_in(edition, literal, operands);
        let words = format!("{literal} on {operands:02X?} in edition {edition}");
        assert_eq!(found(&after), expected, "{words}");
    }
}

/// The top of what is done, or the report.
fn found(after: &After) -> Result<Bytes, u8> {
    match (after.report, after.view) {
        (0, Some(start)) => Ok(after.stack[start..start + 5].try_into().expect("a slot")),
        (report, _) => Err(report),
    }
}

pub fn cases(v: &mut Vectors) {
    paper::cases(v);
    quotients::cases(v);
    sums::cases(v);
    whole::cases(v);
    odd::cases(v);
    numbers::cases(v);
    runs::cases(v);
    random::cases(v);
    lines::cases(v);
}
