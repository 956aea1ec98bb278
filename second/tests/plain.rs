//! The plain Rust that speed is measured against gives the reference's answers: a quick
//! wrong program would be no measure.

use second::draw::{self, EXPONENTS, WORDS};
use second::plain::SHIPPED;
use second::rng::Rng;
use second::{plain, reference, Outcome, RunOutcome};

/// One literal.
fn held_to_the_reference(stack: &[u8], depth: usize, literal: u8) {
    let (mut a, mut b) = (stack.to_vec(), stack.to_vec());
    let expected = reference::operate(&mut a, depth, literal);
    let mut after = depth;
    let report = plain::operate::<SHIPPED>(&mut b, &mut after, literal);
    let answer = Outcome {
        report,
        depth: after,
    };
    assert_eq!(answer, expected, "{literal} on {stack:02X?} at {depth}");
    assert_eq!(b, a, "{literal} on {stack:02X?} at {depth}");
}

fn run_held_to_the_reference(stack: &[u8], depth: usize, list: &[u8]) {
    let (mut a, mut b) = (stack.to_vec(), stack.to_vec());
    let expected = reference::run(&mut a, depth, list);
    let (mut after, mut position) = (depth, usize::MAX);
    let report = plain::run::<SHIPPED>(&mut b, &mut after, list, &mut position);
    let answer = RunOutcome {
        report,
        position,
        depth: after,
    };
    assert_eq!(answer, expected, "{list:?} on {stack:02X?} at {depth}");
    assert_eq!(b, a, "{list:?} on {stack:02X?} at {depth}");
}

#[test]
fn plain_answers_as_the_reference() {
    let mut rng = Rng::new(5);
    for _ in 0..500_000 {
        let slots = rng.below(7) as usize;
        let stack = draw::stack(&mut rng, slots);
        let depth = draw::depth(&mut rng, slots);
        let literal = draw::literal(&mut rng);
        let list = draw::literals(&mut rng, 8);
        let number = draw::any(&mut rng);
        let report = rng.below(3) as u8;

        held_to_the_reference(&stack, depth, literal);

        run_held_to_the_reference(&stack, depth, &list);

        let (mut a, mut b) = (stack.clone(), stack.clone());
        let expected = reference::push(&mut a, depth, &number);
        let mut after = depth;
        let report_of_push = plain::push(&mut b, &mut after, &number);
        let answer = Outcome {
            report: report_of_push,
            depth: after,
        };
        assert_eq!(answer, expected, "{number:02X?} on {stack:02X?} at {depth}");
        assert_eq!(b, a, "{number:02X?} on {stack:02X?} at {depth}");

        assert_eq!(plain::view(&stack, depth), reference::view(&stack, depth));
        let expected = reference::cell(report, &stack, depth);
        assert_eq!(plain::cell(report, &stack, depth), expected);
    }
}

#[test]
fn every_exponent_with_the_words_at_the_edges() {
    for exponent in 0..=255 {
        for word in WORDS {
            for off in 0..5 {
                for sign in [0, 0x8000_0000] {
                    let word = word.wrapping_add(off).wrapping_sub(2) ^ sign;
                    let x = draw::number(exponent, word);
                    for literal in [27, 39, 58, 61] {
                        held_to_the_reference(&x, 1, literal);
                    }
                    for other in EXPONENTS {
                        let pair = [x, draw::number(other, !word)].concat();
                        for literal in [3, 4, 5, 15] {
                            held_to_the_reference(&pair, 2, literal);
                        }
                    }
                }
            }
        }
    }
}

/// Odd is among them.
#[test]
fn sums_of_short_numbers_at_the_edges() {
    let mut values = vec![-65_536];
    for edge in [0, 256, 32_768, 65_533] {
        for value in edge - 2..=edge + 2 {
            values.extend([value, -value]);
        }
    }
    for &a in &values {
        for &b in &values {
            for (b5, other) in [(0, 0), (0, 0xA5), (0x5A, 0), (0xFF, 1)] {
                let pair = [draw::short(a, b5), draw::short(b, other)].concat();
                for literal in [3, 15] {
                    held_to_the_reference(&pair, 2, literal);
                    run_held_to_the_reference(&pair, 2, &[literal, literal]);
                }
            }
        }
    }
}

/// Only 00 and FF are well formed where b1 is zero.
#[test]
fn sums_with_every_second_byte_on_either_side() {
    for a in 0..=255 {
        for b in 0..=255 {
            let pair = [[0, a, 1, 2, 3], [0, b, 0, 0, 4]].concat();
            for literal in [3, 15] {
                held_to_the_reference(&pair, 2, literal);
            }
        }
    }
}

#[test]
fn products_at_the_edges() {
    let mut rng = Rng::new(4);
    for _ in 0..500_000 {
        let first = draw::well_formed(&mut rng);
        let pair = [first, draw::factor(&mut rng, first)].concat();
        held_to_the_reference(&pair, 2, 4);
        run_held_to_the_reference(&pair, 2, &[4]);
    }
    for a in 0..=258 {
        for b in (0..=258).chain([21_845, 32_767, 32_768, 65_534, 65_535]) {
            for sign in [1, -1] {
                let pair = [draw::short(sign * a, 9), draw::short(b, 0)].concat();
                held_to_the_reference(&pair, 2, 4);
            }
        }
    }
}

#[test]
fn the_longest_stack_and_the_next() {
    let mut rng = Rng::new(16);
    for slots in [3_199, 3_200, 3_201] {
        for _ in 0..50 {
            let stack = draw::stack(&mut rng, slots);
            for depth in 3_197..3_203 {
                held_to_the_reference(&stack, depth, draw::literal(&mut rng));
                run_held_to_the_reference(&stack, depth, &draw::literals(&mut rng, 8));
                assert_eq!(plain::view(&stack, depth), reference::view(&stack, depth));
            }
        }
    }
}

#[test]
fn the_longest_list_and_the_next() {
    for length in [59_999, 60_000, 60_001] {
        run_held_to_the_reference(&[0x81, 0, 0, 0, 0], 1, &vec![27; length]);
    }
}
