//! Sums and differences whose ending shifts by each number of places, with digits below the top one:
//! exponents that come out above 0, at 0 and below, and from the largest.

use super::{with_zeros, Vectors, SEED};
use crate::case::After;
use crate::draw::number;
use crate::reference::literals::{ADD, SUBTRACT};
use crate::rng::Rng;
use crate::{Bytes, ZERO};

const SIGN: u32 = 0x8000_0000;

pub fn cases(v: &mut Vectors) {
    by_hand(v);
    let mut rng = Rng::new(SEED);
    not_shifted(v, &mut rng);
    for places in 1..32 {
        of_one_exponent(v, &mut rng, places);
    }
    about_a_power(v, &mut rng);
    in_both_editions(v, &mut rng);
}

fn top(after: &After) -> Bytes {
    assert_eq!(after.report, 0);
    let start = after.view.expect("a number");
    after.stack[start..start + 5]
        .try_into()
        .expect("five bytes")
}

/// By the rules of document 01, worked out on paper.
fn by_hand(v: &mut Vectors) {
    v.reason("A4: differences that are known by hand: places 1, 31 and 16, exponents about 0");
    let least = |exponent| number(exponent, 0);
    for (first, second, result) in [
        (
            number(0x90, 0x7FFF_FFFF),
            least(0x90),
            number(0x8F, 0x7FFF_FFFE),
        ),
        (
            least(0x90),
            number(0x90, 0x7FFF_FFFF),
            number(0x8F, 0xFFFF_FFFE),
        ),
        (number(0x90, 1), least(0x90), number(0x71, 0)),
        (least(0x90), number(0x90, 1), number(0x71, SIGN)),
        // AA AB has sixteen digits.
        (
            number(0xFF, 0x0000_AAAB),
            least(0xFF),
            number(0xEF, 0x2AAB_0000),
        ),
        (
            number(0x90, 0x2AAA_AAAB),
            number(0x90, 0x2AAA_0000),
            number(0x80, 0x2AAB_0000),
        ),
        (
            number(0x11, 0x0000_AAAB),
            least(0x11),
            number(1, 0x2AAB_0000),
        ),
        (number(0x10, 0x0000_AAAB), least(0x10), number(1, 0)),
        (least(0x10), number(0x10, 0x0000_AAAB), number(1, SIGN)),
        (number(0x0F, 0x0000_AAAB), least(0x0F), ZERO),
        (number(1, 0x0000_AAAB), least(1), ZERO),
        (number(1, 0x7FFF_FFFF), least(1), number(1, 0)),
        // Halves go up: the smaller is 7F FF FF FF as it is subtracted, and 80 00 00 00 as it is added.
        (least(0x82), number(0x81, 0x7FFF_FFFF), number(0x63, 0)),
        (number(0x81, 0x7FFF_FFFF), least(0x82), ZERO),
    ] {
        assert_eq!(top(&v.operate(SUBTRACT, &[first, second])), result);
    }
}

/// What the ending makes of T, shifted by so many places, where the larger exponent was this.
fn ended(t: u32, places: u8, exponent: u8, sign: u32) -> Bytes {
    match exponent.checked_sub(places) {
        None => ZERO,
        Some(0) => number(1, sign),
        Some(e) => number(e, (t << places) & !SIGN | sign),
    }
}

fn turned(mut x: Bytes) -> Bytes {
    x[1] ^= 0x80;
    x
}

/// The difference of two positive numbers, or of their negatives: the literal, its operands in one
/// order or the other, and the sign of what is left. Which it is changes from case to case.
fn difference(n: u32, larger: Bytes, smaller: Bytes) -> (u8, [Bytes; 2], u32) {
    let (literal, operands, sign) = match n / 2 % 4 {
        0 => (SUBTRACT, [larger, smaller], 0),
        1 => (SUBTRACT, [smaller, larger], SIGN),
        2 => (ADD, [larger, turned(smaller)], 0),
        _ => (ADD, [turned(smaller), larger], 0),
    };
    if n.is_multiple_of(2) {
        (literal, operands, sign)
    } else {
        (literal, operands.map(turned), sign ^ SIGN)
    }
}

/// Near numbers, the larger first, whose difference is T, and what is left of it.
fn near(v: &mut Vectors, [larger, smaller]: [Bytes; 2], t: u32, places: u8) {
    for _ in 0..2 {
        let (literal, operands, sign) = difference(v.of_group, larger, smaller);
        let after = v.operate(literal, &operands);
        assert_eq!(
            top(&after),
            ended(t, places, larger[0], sign),
            "{operands:02X?}"
        );
    }
}

/// Numbers eight places apart, with a sum that carries nothing.
fn not_shifted(v: &mut Vectors, rng: &mut Rng) {
    v.reason("A4: sums that are not shifted, with digits below the top one");
    for exponent in [9, 0x90, 0xFF] {
        for t in with_zeros(rng, 0) {
            let t = t | 0x4000_0000;
            let small = 0x0080_0000 + rng.below(0x0080_0000) as u32;
            let large = number(exponent, (t - small) & !SIGN);
            // Turned, it is added to what it is subtracted from.
            let small = turned(number(exponent - 8, (small << 8) & !SIGN));
            near(v, [large, small], t, 0);
        }
    }
}

/// Exponents from which the ending comes to -1, 0 and 1, and the largest.
fn exponents(places: u8) -> Vec<u8> {
    let mut all = vec![places - 1, places, places + 1, 0xFF];
    all.retain(|&exponent| exponent > 0);
    all
}

fn of_one_exponent(v: &mut Vectors, rng: &mut Rng, places: u8) {
    v.reason(&format!(
        "A4: numbers of one exponent whose difference is shifted by {places}"
    ));
    for exponent in exponents(places) {
        for t in with_zeros(rng, places.into()) {
            near(v, drawn(rng, exponent, t), t, places);
        }
    }
}

/// Two numbers that are T apart, the larger first.
fn drawn(rng: &mut Rng, exponent: u8, t: u32) -> [Bytes; 2] {
    let low = rng.below((SIGN - t).into()) as u32;
    [number(exponent, low + t), number(exponent, low)]
}

/// The smaller number is even, so that nothing is rounded away where it is halved.
fn about_a_power(v: &mut Vectors, rng: &mut Rng) {
    v.reason("A4: differences of numbers on either side of a power of two, by every place");
    for places in 2..32 {
        for exponent in [places, 0xFF] {
            let [_, _, t] = with_zeros(rng, places.into());
            let above = rng.below(t.into()) as u32;
            let below = 2 * (t - above);
            let smaller = number(exponent - 1, SIGN - below);
            near(v, [number(exponent, above), smaller], t, places);
        }
    }
}

fn in_both_editions(v: &mut Vectors, rng: &mut Rng) {
    v.reason("A4: differences of near numbers by every place, the same in both editions");
    for places in 1..32 {
        let exponent = [places, places + 1, 0x90, 0xFF][usize::from(places % 4)];
        let [_, _, t] = with_zeros(rng, places.into());
        let [larger, smaller] = drawn(rng, exponent, t);
        let (literal, operands, sign) = difference(v.of_group / 2, larger, smaller);
        for edition in [0, 1] {
            let after = v.operate_in(edition, literal, &operands);
            assert_eq!(
                top(&after),
                ended(t, places, exponent, sign),
                "{operands:02X?}"
            );
        }
    }
}
