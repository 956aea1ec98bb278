//! The plain Rust of the mended edition: answers written out by hand, a rule in exact whole numbers
//! for the places in which it differs from the shipped one, and the numbers of the editions.

use second::draw::{self, EXPONENTS, WORDS};
use second::plain::{self, MENDED, NO_SUCH_EDITION, SHIPPED};
use second::reference::{DONE, LIMITS, MALFORMED, NO_ROOM, NO_SUCH_LITERAL, TOO_BIG, TOO_FEW};
use second::rng::Rng;
use second::{Bytes, Outcome, RunOutcome, ZERO};

const SUBTRACT: u8 = 3;
const MULTIPLY: u8 = 4;
const DIVIDE: u8 = 5;
const ADD: u8 = 15;
const INT: u8 = 39;
const TRUNCATE: u8 = 58;
/// The literals that look at a number's form.
const READING: [u8; 8] = [SUBTRACT, MULTIPLY, DIVIDE, ADD, 27, INT, TRUNCATE, 61];
/// Those that do not.
const MOVING: [u8; 3] = [1, 2, 49];

/// What plain Rust is held to.
fn expected(stack: &mut [u8], depth: usize, literal: u8) -> Outcome {
    second::reference::operate_of(second::reference::Edition::Mended, stack, depth, literal)
}

fn operate<const EDITION: u8>(stack: &mut [u8], depth: usize, literal: u8) -> Outcome {
    let mut after = depth;
    let report = plain::operate::<EDITION>(stack, &mut after, literal);
    Outcome {
        report,
        depth: after,
    }
}

/// The shipped edition's answer, but for operands that are odd, quotients, -65,536 and whole parts.
fn by_rule(stack: &mut [u8], depth: usize, literal: u8) -> Outcome {
    let before = stack.to_vec();
    let shipped = operate::<SHIPPED>(stack, depth, literal);
    let earlier = [LIMITS, NO_SUCH_LITERAL, TOO_FEW, NO_ROOM].contains(&shipped.report);
    if earlier || !READING.contains(&literal) {
        return shipped;
    }
    let two = [SUBTRACT, MULTIPLY, DIVIDE, ADD].contains(&literal);
    let lowest = depth - if two { 2 } else { 1 };
    let taken: Vec<Bytes> = (lowest..depth).map(|i| slot(&before, i)).collect();
    if taken.iter().any(is_odd) {
        stack.copy_from_slice(&before);
        return Outcome {
            report: MALFORMED,
            depth,
        };
    }
    if shipped.report == DONE {
        let left = slot(stack, lowest);
        let mended = match literal {
            DIVIDE => quotient(taken[0], taken[1]),
            ADD | SUBTRACT if is_odd(&left) => full(-65_536),
            INT => whole(taken[0], true),
            TRUNCATE => whole(taken[0], false),
            _ => left,
        };
        stack[5 * lowest..5 * lowest + 5].copy_from_slice(&mended);
    }
    shipped
}

fn slot(stack: &[u8], i: usize) -> Bytes {
    stack[5 * i..5 * i + 5].try_into().unwrap()
}

fn is_odd(b: &Bytes) -> bool {
    b[..4] == [0, 0xFF, 0, 0]
}

/// The full number of a whole number that is not zero and has 32 digits at most.
fn full(value: i128) -> Bytes {
    let magnitude = value.unsigned_abs();
    let digits = 128 - magnitude.leading_zeros();
    signed(
        128 + digits as u8,
        (magnitude << (32 - digits)) as u32,
        value < 0,
    )
}

fn signed(exponent: u8, mantissa: u32, negative: bool) -> Bytes {
    let sign = if negative { 0x8000_0000 } else { 0 };
    draw::number(exponent, mantissa & 0x7FFF_FFFF | sign)
}

/// The full form of a well-formed number: its exponent byte and its mantissa with the sign; zeros
/// for a zero.
fn parts(b: Bytes) -> (i32, i128) {
    let b = match b {
        [0, _, 0, 0, _] => return (0, 0),
        [0, sign, low, high, _] => {
            let low_half = i128::from(low) + 256 * i128::from(high);
            full(low_half - if sign == 0 { 0 } else { 65_536 })
        }
        _ => b,
    };
    let word = u32::from_be_bytes([b[1], b[2], b[3], b[4]]);
    let mantissa = i128::from(word | 0x8000_0000);
    let sign = if word & 0x8000_0000 != 0 { -1 } else { 1 };
    (b[0].into(), sign * mantissa)
}

/// To the nearest, halves up. The divisor is not zero, and it is not too big.
fn quotient(first: Bytes, second: Bytes) -> Bytes {
    let ((a, m), (b, n)) = (parts(first), parts(second));
    let (magnitude, by) = (m.abs(), n.abs());
    if m == 0 {
        return ZERO;
    }
    let places = if magnitude >= by { 31 } else { 32 };
    let exponent = a - b + 160 - places;
    let mantissa = ((magnitude << (places + 1)) + by) / (2 * by);
    assert!((1 << 31..1 << 32).contains(&mantissa));
    let negative = (m < 0) != (n < 0);
    match exponent {
        ..0 => ZERO,
        0 => signed(1, 0, negative),
        _ => signed(exponent.try_into().unwrap(), mantissa as u32, negative),
    }
}

/// A well-formed number without its part below one, towards zero or down.
fn whole(x: Bytes, down: bool) -> Bytes {
    let (exponent, mantissa) = parts(x);
    if x[0] == 0 || exponent >= 160 {
        return x;
    }
    let one = 1 << (160 - exponent).min(64);
    let value = if down {
        mantissa.div_euclid(one)
    } else {
        mantissa / one
    };
    if exponent <= 144 && value != -65_536 {
        draw::short(value as i32, 0)
    } else {
        full(value)
    }
}

fn held(stack: &[u8], depth: usize, literal: u8) {
    let (mut a, mut b, mut c) = (stack.to_vec(), stack.to_vec(), stack.to_vec());
    let answer = expected(&mut a, depth, literal);
    let told = format!("{literal} on {stack:02X?} at {depth}");
    assert_eq!(by_rule(&mut c, depth, literal), answer, "{told}");
    assert_eq!(c, a, "{told}");
    c.copy_from_slice(stack);
    assert_eq!(operate::<MENDED>(&mut b, depth, literal), answer, "{told}");
    assert_eq!(b, a, "{told}");
    let mut after = depth;
    let report = plain::operate_in(MENDED, &mut c, &mut after, literal);
    assert_eq!((report, after), (answer.report, answer.depth), "{told}");
    assert_eq!(c, a, "{told}");
}

/// A run is its literals, one after another.
fn run_held(stack: &[u8], depth: usize, list: &[u8]) {
    let (mut a, mut b, mut c) = (stack.to_vec(), stack.to_vec(), stack.to_vec());
    let mut answer = RunOutcome {
        report: DONE,
        position: 0,
        depth,
    };
    if list.len() > 60_000 || a.len() > 16_000 || depth > a.len() / 5 {
        answer.report = LIMITS;
    }
    while answer.report == DONE && answer.position < list.len() {
        let step = expected(&mut a, answer.depth, list[answer.position]);
        answer.report = step.report;
        answer.depth = step.depth;
        answer.position += usize::from(step.report == DONE);
    }
    let told = format!("{list:?} on {stack:02X?} at {depth}");
    let (mut after, mut position) = (depth, usize::MAX);
    let report = plain::run::<MENDED>(&mut b, &mut after, list, &mut position);
    let given = RunOutcome {
        report,
        position,
        depth: after,
    };
    assert_eq!(given, answer, "{told}");
    assert_eq!(b, a, "{told}");
    (after, position) = (depth, usize::MAX);
    let report = plain::run_in(MENDED, &mut c, &mut after, list, &mut position);
    let given = RunOutcome {
        report,
        position,
        depth: after,
    };
    assert_eq!(given, answer, "{told}");
    assert_eq!(c, a, "{told}");
    let odd = |stack: &[u8], depth| (0..depth).any(|i| is_odd(&slot(stack, i)));
    if answer.report != LIMITS && !odd(stack, depth) {
        assert!(!odd(&b, after), "{told}: it left an odd slot");
    }
}

#[test]
fn answers_by_hand() {
    const TENTH: [u8; 10] = [0x81, 0, 0, 0, 0, 0x84, 0x20, 0, 0, 0];
    const THIRDS: [u8; 10] = [0x82, 0, 0, 0, 0, 0x82, 0x40, 0, 0, 0];
    const EXACT: [u8; 10] = [0x84, 0x70, 0, 0, 0, 0x84, 0x50, 0, 0, 0];
    const BELOW: [u8; 10] = [0, 0xFF, 0x18, 0x02, 9, 0, 0xFF, 0xE8, 0xFD, 7];
    const LESS: [u8; 10] = [0, 0xFF, 0x01, 0x00, 9, 0, 0, 1, 0, 7];
    const NEXT: [u8; 10] = [0, 0xFF, 0x02, 0x00, 9, 0, 0, 1, 0, 7];
    let minus_65536 = [0x91, 0x80, 0, 0, 0];
    for (literal, operands, result) in [
        (DIVIDE, &TENTH[..], [0x7D, 0x4C, 0xCC, 0xCC, 0xCD]),
        (DIVIDE, &THIRDS, [0x80, 0x2A, 0xAA, 0xAA, 0xAB]),
        (DIVIDE, &EXACT, [0x81, 0x13, 0xB1, 0x3B, 0x14]),
        (ADD, &BELOW, minus_65536),
        (SUBTRACT, &LESS, minus_65536),
        (SUBTRACT, &NEXT, [0, 0xFF, 1, 0, 9]),
        (INT, &[0x90, 0xFF, 0xFF, 0x80, 0], minus_65536),
        (INT, &[0x91, 0x80, 0, 0, 0], minus_65536),
        (INT, &[0x91, 0x80, 0, 0x7F, 0xFF], [0x91, 0x80, 0, 0x80, 0]),
        (INT, &[0x91, 0x80, 0, 0x80, 0], [0x91, 0x80, 0, 0x80, 0]),
        (TRUNCATE, &[0x91, 0x80, 0, 0, 0], minus_65536),
        (TRUNCATE, &[0x91, 0x80, 0, 0x7F, 0xFF], minus_65536),
        (
            TRUNCATE,
            &[0x91, 0x80, 0, 0xFF, 0xFF],
            [0x91, 0x80, 0, 0x80, 0],
        ),
        (TRUNCATE, &[0x90, 0xFF, 0xFF, 0x80, 0], [0, 0xFF, 1, 0, 0]),
    ] {
        let mut stack = operands.to_vec();
        let outcome = operate::<MENDED>(&mut stack, operands.len() / 5, literal);
        let told = format!("{literal} on {operands:02X?}");
        assert_eq!((outcome.report, outcome.depth), (DONE, 1), "{told}");
        assert_eq!(slot(&stack, 0), result, "{told}");
        assert_eq!(stack[5..], operands[5..], "{told}");
    }
}

/// Malformed to the literals that read numbers, before a divisor of zero and after a stack that is
/// too small; a number like another to the rest.
#[test]
fn an_odd_operand() {
    let odd = [0, 0xFF, 0, 0, 0x5A];
    let others = [ZERO, odd, [0, 0xFF, 1, 0, 0], [0x81, 0, 0, 0, 0], [0xFF; 5]];
    for other in others {
        for pair in [[odd, other], [other, odd]] {
            let stack = [pair[0], pair[1], ZERO].concat();
            for literal in READING {
                held(&stack, 2, literal);
                held(&stack, 1, literal);
                held(&stack, 0, literal);
                if literal < 27 || is_odd(&pair[1]) {
                    let mut after = stack.clone();
                    let refused = Outcome {
                        report: MALFORMED,
                        depth: 2,
                    };
                    assert_eq!(operate::<MENDED>(&mut after, 2, literal), refused);
                    assert_eq!(after, stack);
                }
            }
            for literal in MOVING {
                let (mut a, mut b) = (stack.clone(), stack.clone());
                let shipped = operate::<SHIPPED>(&mut a, 2, literal);
                assert_eq!(shipped.report, DONE);
                assert_eq!(operate::<MENDED>(&mut b, 2, literal), shipped);
                assert_eq!(b, a);
            }
        }
    }
    let by_zero = [[0x81, 0, 0, 0, 0], ZERO].concat();
    assert_eq!(
        operate::<MENDED>(&mut by_zero.clone(), 2, DIVIDE).report,
        TOO_BIG
    );
}

#[test]
fn at_random() {
    let mut rng = Rng::new(7);
    for _ in 0..500_000 {
        let slots = rng.below(7) as usize;
        let stack = draw::stack(&mut rng, slots);
        let depth = draw::depth(&mut rng, slots);
        held(&stack, depth, draw::literal(&mut rng));
        run_held(&stack, depth, &draw::literals(&mut rng, 8));
    }
}

#[test]
fn every_exponent_with_the_words_at_the_edges() {
    for exponent in 0..=255 {
        for word in WORDS {
            for off in 0..5 {
                for sign in [0, 0x8000_0000] {
                    let word = word.wrapping_add(off).wrapping_sub(2) ^ sign;
                    let x = draw::number(exponent, word);
                    for literal in [27, INT, TRUNCATE, 61] {
                        held(&x, 1, literal);
                    }
                    for other in EXPONENTS {
                        let pair = [x, draw::number(other, !word)].concat();
                        for literal in [SUBTRACT, MULTIPLY, DIVIDE, ADD] {
                            held(&pair, 2, literal);
                        }
                    }
                }
            }
        }
    }
}

/// Those about -65,536, where int and truncation differ, and their neighbours.
#[test]
fn every_word_about_65536() {
    for exponent in 143..=147 {
        for high in [0x8000, 0x8001, 0xFFFE, 0xFFFF, 0x0000, 0x7FFF] {
            for low in 0..=0xFFFF {
                let x = draw::number(exponent, high << 16 | low);
                for literal in [INT, TRUNCATE] {
                    held(&x, 1, literal);
                }
            }
        }
    }
}

/// Odd is among them.
#[test]
fn short_numbers_at_the_edges() {
    let mut values = vec![-65_536];
    for edge in [0, 256, 32_768, 65_533] {
        for value in edge - 2..=edge + 2 {
            values.extend([value, -value]);
        }
    }
    for &a in &values {
        for &b in &values {
            for (b5, other) in [(0, 0), (0, 0xA5), (0x5A, 0), (0xFF, 1)] {
                let pair = [draw::short(a, b5), draw::short(b, other)].concat();
                for literal in READING {
                    held(&pair, 2, literal);
                    run_held(&pair, 2, &[literal, literal]);
                }
            }
        }
    }
}

/// Only 00 and FF are well formed where b1 is zero.
#[test]
fn every_second_byte_on_either_side() {
    for a in 0..=255 {
        for b in 0..=255 {
            for (high, b5) in [(0, 0), (0, 4), (1, 0), (1, 4)] {
                let pair = [[0, a, 0, high, b5], [0, b, 0, 0, b5]].concat();
                for literal in READING {
                    held(&pair, 2, literal);
                    held(&pair, 1, literal);
                }
            }
        }
    }
}

/// Quotients of mantissas that are near one another, or whose digits end soon.
#[test]
fn quotients_at_the_edges() {
    let mut rng = Rng::new(34);
    for _ in 0..500_000 {
        let first = draw::well_formed(&mut rng);
        let pair = [first, draw::beside(&mut rng, first)].concat();
        held(&pair, 2, DIVIDE);
    }
    for a in 1..=258 {
        for b in (1..=258).chain([21_845, 32_767, 32_768, 65_534, 65_535]) {
            for sign in [1, -1] {
                let pair = [draw::short(sign * a, 9), draw::short(b, 0)].concat();
                held(&pair, 2, DIVIDE);
            }
        }
    }
}

#[test]
fn editions_by_their_numbers() {
    let mut rng = Rng::new(12);
    for _ in 0..100_000 {
        let slots = rng.below(7) as usize;
        let stack = draw::stack(&mut rng, slots);
        let depth = draw::depth(&mut rng, slots);
        let literal = draw::literal(&mut rng);
        let list = draw::literals(&mut rng, 8);

        let (mut a, mut b, mut after) = (stack.clone(), stack.clone(), depth);
        let shipped = operate::<SHIPPED>(&mut a, depth, literal);
        let report = plain::operate_in(SHIPPED, &mut b, &mut after, literal);
        assert_eq!((report, after, &b), (shipped.report, shipped.depth, &a));

        let (mut a, mut b) = (stack.clone(), stack.clone());
        let (mut one, mut other) = ((depth, 77), (depth, 88));
        let expected = plain::run::<SHIPPED>(&mut a, &mut one.0, &list, &mut one.1);
        let report = plain::run_in(SHIPPED, &mut b, &mut other.0, &list, &mut other.1);
        assert_eq!((report, other, b), (expected, one, a));

        let none = 2 + rng.below(254) as u8;
        let (mut same, mut after, mut position) = (stack.clone(), depth, 99);
        let report = plain::operate_in(none, &mut same, &mut after, literal);
        assert_eq!((report, after), (NO_SUCH_EDITION, depth));
        let report = plain::run_in(none, &mut same, &mut after, &list, &mut position);
        assert_eq!((report, after, position), (NO_SUCH_EDITION, depth, 0));
        assert_eq!(same, stack);
    }
}

#[test]
fn the_longest_stack_and_list_and_the_next() {
    let mut rng = Rng::new(16);
    for slots in [3_199, 3_200, 3_201] {
        for _ in 0..50 {
            let stack = draw::stack(&mut rng, slots);
            for depth in 3_197..3_203 {
                held(&stack, depth, draw::literal(&mut rng));
                run_held(&stack, depth, &draw::literals(&mut rng, 8));
            }
        }
    }
    for length in [59_999, 60_000, 60_001] {
        run_held(&[0x81, 0, 0, 0, 0], 1, &vec![27; length]);
    }
}
