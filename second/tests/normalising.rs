//! Document 02's A4 over the reference and over plain Rust: the number of leading zeros by its own
//! words, and that the ending is what doubling one place at a time comes to.

use second::draw::{self, near, number};
use second::plain::{self, MENDED, SHIPPED};
use second::reference::edition::BOTH;
use second::reference::ending::ending;
use second::reference::{self, leading_zeros, slot, Edition};
use second::rng::Rng;
use second::{Bytes, Outcome, RunOutcome, ZERO};

const SUBTRACT: u8 = 3;
const ADD: u8 = 15;
const SIGN: u32 = 0x8000_0000;

/// Powers of two, one less and one more; each length with other digits below the top one.
fn words() -> Vec<u32> {
    let mut rng = Rng::new(4);
    let mut all = vec![0];
    for place in 0..32 {
        let power = 1u32 << place;
        all.extend([power - 1, power, power + 1]);
        for digits in [0xD555_5555, 0xAAAA_AAAA, rng.word() | SIGN] {
            all.push(digits >> place);
        }
    }
    all.extend((0..100_000).map(|_| draw::of_any_length(&mut rng)));
    all
}

#[test]
fn leading_zeros_that_are_known() {
    for (t, zeros) in [
        (0, 32),
        (1, 31),
        (2, 30),
        (3, 30),
        (4, 29),
        (0xFF, 24),
        (0xFFFF, 16),
        (0x1_0000, 15),
        (0x00FF_FFFF, 8),
        (0x0100_0000, 7),
        (0x7FFF_FFFF, 1),
        (0x8000_0000, 0),
        (0x8000_0001, 0),
        (0xFFFF_FFFF, 0),
    ] {
        assert_eq!(leading_zeros(t), zeros, "{t:08X}");
        assert_eq!(plain::leading_zeros(t), zeros, "{t:08X}");
    }
}

#[test]
fn there_is_one_such_number_and_it_is_that() {
    for t in words() {
        let right: Vec<u32> = (0..=64)
            .filter(|z| (1 << 31..1 << 32).contains(&(u128::from(t) << z)))
            .collect();
        let zeros = leading_zeros(t);
        assert_eq!(plain::leading_zeros(t), zeros, "{t:08X}");
        if t == 0 {
            assert_eq!((zeros, right), (32, vec![]));
        } else {
            assert_eq!(right, [u32::from(zeros)], "{t:08X}");
        }
    }
}

/// Document 01's ending as it is written, one place at a time.
fn one_place_at_a_time(negative: bool, t: u32, digits: &[u32], exponent: i32) -> Option<Bytes> {
    if t == 0 {
        return Some(ZERO);
    }
    let (mut t, mut e) = (u64::from(t), exponent);
    let mut next = digits.iter().copied().chain(std::iter::repeat(0));
    while t < 1 << 31 {
        t = 2 * t + u64::from(next.next().unwrap());
        e -= 1;
    }
    let sign = if negative { SIGN } else { 0 };
    match e {
        256.. => None,
        0 => Some(number(1, sign)),
        ..0 => Some(ZERO),
        _ => {
            t += u64::from(next.next().unwrap());
            assert!(t < 1 << 32);
            Some(number(e as u8, t as u32 & !SIGN | sign))
        }
    }
}

/// Exponents about 0 and 255, with all the places that bring them there, and some between.
#[test]
fn the_ending_doubles_one_place_at_a_time() {
    let exponents: Vec<i32> = (-130..=40)
        .chain([100, 128, 160])
        .chain(250..=300)
        .collect();
    let words: Vec<u32> = words().into_iter().take(400).collect();
    for t in words {
        for &e in &exponents {
            for negative in [false, true] {
                let expected = one_place_at_a_time(negative, t, &[], e);
                let words = format!("{t:08X} at {e}");
                assert_eq!(ending(negative, t.into(), 0, e), expected, "{words}");
            }
        }
    }
}

/// A quotient has one rounding digit or two. T is even here, so that a digit added to it never
/// reaches 2^32.
#[test]
fn and_takes_in_rounding_digits_on_its_way() {
    let mut rng = Rng::new(33);
    for _ in 0..200_000 {
        let t = (rng.word() | SIGN) >> rng.below(3) & !1;
        let digits = [rng.below(2) as u32, rng.below(2) as u32];
        let e = rng.pick(&[-1, 0, 1, 2, 3, 129, 254, 255, 256, 257, 258]);
        for places in [1, 2] {
            let used = &digits[..places];
            let whole = used
                .iter()
                .fold(i128::from(t), |n, &d| 2 * n + i128::from(d));
            let found = ending(false, whole, places as u32, e);
            let expected = one_place_at_a_time(false, t, used, e);
            assert_eq!(found, expected, "{t:08X} {used:?} at {e}");
        }
    }
}

fn reference_result(edition: Edition, literal: u8, operands: [Bytes; 2]) -> Result<Bytes, u8> {
    let mut stack = operands.concat();
    match reference::operate_of(edition, &mut stack, 2, literal).report {
        reference::DONE => Ok(slot(&stack, 0)),
        report => Err(report),
    }
}

#[test]
fn differences_that_are_known() {
    for (first, second, result) in [
        (
            [0x90, 0x7F, 0xFF, 0xFF, 0xFF],
            [0x90, 0, 0, 0, 0],
            [0x8F, 0x7F, 0xFF, 0xFF, 0xFE],
        ),
        ([0x90, 0, 0, 0, 1], [0x90, 0, 0, 0, 0], [0x71, 0, 0, 0, 0]),
        (
            [0xFF, 0, 0, 0xAA, 0xAB],
            [0xFF, 0, 0, 0, 0],
            [0xEF, 0x2A, 0xAB, 0, 0],
        ),
        (
            [0x11, 0, 0, 0xAA, 0xAB],
            [0x11, 0, 0, 0, 0],
            [0x01, 0x2A, 0xAB, 0, 0],
        ),
        (
            [0x10, 0, 0, 0, 0],
            [0x10, 0, 0, 0xAA, 0xAB],
            [0x01, 0x80, 0, 0, 0],
        ),
        ([0x0F, 0, 0, 0xAA, 0xAB], [0x0F, 0, 0, 0, 0], ZERO),
        (
            [0x82, 0, 0, 0, 0],
            [0x81, 0x7F, 0xFF, 0xFF, 0xFF],
            [0x63, 0, 0, 0, 0],
        ),
    ] {
        for edition in BOTH {
            let found = reference_result(edition, SUBTRACT, [first, second]);
            assert_eq!(found, Ok(result), "{first:02X?} less {second:02X?}");
        }
        let mut stack = [first, second].concat();
        assert_eq!(plain::operate::<SHIPPED>(&mut stack, &mut 2, SUBTRACT), 0);
        assert_eq!(stack, [result, second].concat());
    }
}

/// Two near numbers lose as many bits as they were drawn for, and are shifted by as many places.
#[test]
fn near_numbers_lose_so_many_bits() {
    let mut rng = Rng::new(31);
    for bits in 1..32 {
        for _ in 0..2_000 {
            let exponent = 32 + rng.below(224) as u8;
            let [first, second] = near::pair(&mut rng, exponent, bits);
            let mantissa =
                |x: Bytes| i64::from(u32::from_be_bytes([x[1], x[2], x[3], x[4]]) | SIGN);
            let t = (mantissa(first) - mantissa(second)).unsigned_abs() as u32;
            assert_eq!(u32::from(leading_zeros(t)), bits);
            let less = reference_result(Edition::Shipped, SUBTRACT, [first, second]).unwrap();
            assert_eq!(u32::from(less[0]), u32::from(exponent) - bits);
            assert_eq!(mantissa(less), i64::from(t) << bits);
        }
    }
}

/// One literal and a run of plain Rust, held to the reference; the exponent byte of what the literal
/// left.
fn held<const EDITION: u8>(edition: Edition, literal: u8, operands: [Bytes; 2]) -> u8 {
    let words = format!("{edition:?}: {literal} on {operands:02X?}");
    let (mut a, mut b) = (operands.concat(), operands.concat());
    let expected = reference::operate_of(edition, &mut a, 2, literal);
    let mut depth = 2;
    let report = plain::operate::<EDITION>(&mut b, &mut depth, literal);
    assert_eq!(Outcome { report, depth }, expected, "{words}");
    assert_eq!(b, a, "{words}");
    let exponent = a[0];
    let (mut a, mut b) = (operands.concat(), operands.concat());
    let list = [literal, 49, literal];
    let expected = reference::run_of(edition, &mut a, 2, &list);
    let (mut depth, mut position) = (2, usize::MAX);
    let report = plain::run::<EDITION>(&mut b, &mut depth, &list, &mut position);
    let found = RunOutcome {
        report,
        position,
        depth,
    };
    assert_eq!(found, expected, "{words}");
    assert_eq!(b, a, "{words}");
    exponent
}

#[test]
fn plain_answers_as_the_reference_to_near_numbers() {
    let mut rng = Rng::new(32);
    let mut smallest = 0;
    for _ in 0..300_000 {
        let operands = near::any(&mut rng);
        for literal in [SUBTRACT, ADD] {
            held::<MENDED>(Edition::Mended, literal, operands);
            let left = held::<SHIPPED>(Edition::Shipped, literal, operands);
            smallest += u32::from(left <= 1);
        }
    }
    assert!(smallest > 10_000, "{smallest}");
}
