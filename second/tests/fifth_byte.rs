//! Document 02's A2 over the reference: whose b5 a short sum has, that addition commutes but for
//! it, and that it changes nothing else of a run.

use second::draw;
use second::reference::edition::BOTH;
use second::reference::literals::{malformed, malformed_operand, NEGATE, TRUNCATE};
use second::reference::{addition, cell, operate, run_of, slot, Edition};
use second::rng::Rng;
use second::Bytes;

fn add(first: Bytes, second: Bytes) -> Option<Bytes> {
    addition::add(Edition::Shipped, first, second)
}

fn subtract(first: Bytes, second: Bytes) -> Option<Bytes> {
    addition::subtract(Edition::Shipped, first, second)
}

/// Of a number that is not malformed.
fn is_short_or_odd(x: Bytes) -> bool {
    x[0] == 0
}

/// Whether two numbers are the same but for b5, which a full one has no other of.
fn same_but_for_b5(x: Bytes, y: Bytes) -> bool {
    x == y || is_short_or_odd(x) && !malformed(x) && x[..4] == y[..4]
}

#[test]
fn a_short_sum_has_the_first_numbers_b5() {
    let (one, two) = ([0, 0, 1, 0, 0x9B], [0, 0, 2, 0, 0x11]);
    assert_eq!(add(one, two), Some([0, 0, 3, 0, 0x9B]));
    assert_eq!(add(two, one), Some([0, 0, 3, 0, 0x11]));
    assert_eq!(subtract(one, two), Some([0, 0xFF, 0xFF, 0xFF, 0x9B]));
    assert_eq!(subtract(two, one), Some([0, 0, 1, 0, 0x11]));
    // -65,000 and -536 come out odd.
    let (large, small) = ([0, 0xFF, 0x18, 0x02, 0x5A], [0, 0xFF, 0xE8, 0xFD, 0xA5]);
    assert_eq!(add(large, small), Some([0, 0xFF, 0, 0, 0x5A]));
    assert_eq!(add(small, large), Some([0, 0xFF, 0, 0, 0xA5]));
    // A number less itself; and less a zero, whose own b5 the negation leaves.
    assert_eq!(subtract(one, one), Some([0, 0, 0, 0, 0x9B]));
    assert_eq!(subtract(one, [0, 0, 0, 0, 0x11]), Some(one));
    assert_eq!(
        subtract([0, 0, 0, 0, 0x11], one),
        Some([0, 0xFF, 0xFF, 0xFF, 0x11])
    );
}

#[test]
fn a_sum_of_the_full_route_has_not() {
    let most = [0, 0, 0xFF, 0xFF, 0x9B];
    assert_eq!(add(most, [0, 0, 1, 0, 0x11]), Some([0x91, 0, 0, 0, 0]));
    let odd = [0, 0xFF, 0, 0, 0x9B];
    assert_eq!(add(odd, odd), Some([0; 5]));
    assert_eq!(add([0, 0, 5, 0, 0x9B], [0x83, 0xA0, 0, 0, 0]), Some([0; 5]));
}

#[test]
fn negation_and_truncation_of_a_full_number_write_0() {
    for (literal, x, left) in [
        (NEGATE, [0, 0, 3, 0, 0x9B], [0, 0xFF, 0xFD, 0xFF, 0]),
        (NEGATE, [0, 0xFF, 0, 0, 0x9B], [0; 5]),
        (TRUNCATE, [0x82, 0x19, 0x99, 0x99, 0x9A], [0, 0, 2, 0, 0]),
        (TRUNCATE, [0x91, 0x80, 0, 0x7F, 0xFF], [0, 0xFF, 0, 0, 0]),
    ] {
        let mut stack = x;
        assert_eq!(operate(&mut stack, 1, literal).report, 0);
        assert_eq!(stack, left);
    }
}

#[test]
fn addition_commutes_but_for_b5_of_a_short_or_odd_result() {
    let mut rng = Rng::new(2);
    let (mut tried, mut other_b5, mut odd) = (0, 0, 0);
    while tried < 500_000 {
        let edition = rng.pick(&BOTH);
        let first = draw::well_formed(&mut rng);
        let second = draw::beside(&mut rng, first);
        if [first, second]
            .iter()
            .any(|&x| malformed_operand(edition, x))
        {
            continue;
        }
        tried += 1;
        let words = format!("{edition:?}: {first:02X?} and {second:02X?}");
        let add = |first, second| addition::add(edition, first, second);
        match (add(first, second), add(second, first)) {
            (Some(sum), Some(turned)) => {
                assert!(same_but_for_b5(sum, turned), "{words}");
                other_b5 += u32::from(sum != turned);
                odd += u32::from(sum != turned && sum[..4] == [0, 0xFF, 0, 0]);
            }
            (None, None) => {}
            _ => panic!("one order alone is too big: {words}"),
        }
    }
    assert!(other_b5 > 10_000 && odd > 100, "{other_b5}, {odd}");
}

/// Other fifth bytes for about half of the short and odd numbers below the depth.
fn other_fifth_bytes(rng: &mut Rng, stack: &mut [u8], depth: usize) {
    let below = stack.as_chunks_mut().0.iter_mut().take(depth);
    for x in below.filter(|x| is_short_or_odd(**x) && !malformed(**x)) {
        if rng.one_in(2) {
            x[4] = rng.byte();
        }
    }
}

#[test]
fn no_report_position_depth_or_cell_of_a_run_goes_by_b5() {
    let mut rng = Rng::new(22);
    let (mut done, mut left_other) = (0, 0);
    for _ in 0..500_000 {
        let edition = rng.pick(&BOTH);
        let slots = rng.below(7) as usize;
        let stack = draw::stack(&mut rng, slots);
        let depth = draw::depth(&mut rng, slots);
        let list = draw::literals(&mut rng, 8);
        let (mut a, mut b) = (stack.clone(), stack.clone());
        other_fifth_bytes(&mut rng, &mut b, depth);
        if a == b {
            continue;
        }
        let words = format!("{edition:?}: {list:?} on {a:02X?} and on {b:02X?} at {depth}");
        let answer = run_of(edition, &mut a, depth, &list);
        assert_eq!(run_of(edition, &mut b, depth, &list), answer, "{words}");
        let shown = cell(answer.report, &a, answer.depth);
        assert_eq!(cell(answer.report, &b, answer.depth), shown, "{words}");
        let mut all = (0..slots).map(|i| (slot(&a, i), slot(&b, i)));
        assert!(all.all(|(x, y)| same_but_for_b5(x, y)), "{words}");
        assert_eq!(a[5 * slots..], b[5 * slots..], "{words}");
        done += u32::from(answer.position > 0);
        left_other += u32::from(a != b);
    }
    assert!(done > 50_000 && left_other > 50_000, "{done}, {left_other}");
}
