//! Document 02's A3 over the reference: each of the three places and its neighbours, with answers
//! by hand; which operands are malformed; that nothing else differs; and that a mended run leaves
//! no odd slot where there was none.

use second::draw::{self, minus_65536, number, short};
use second::reference::edition::BOTH;
use second::reference::literals::{
    malformed_operand, takes, ADD, ALL, DELETE, DIVIDE, DUPLICATE, EXCHANGE, INT, NEGATE, SUBTRACT,
    TRUNCATE,
};
use second::reference::{
    self, cell, operate_in, operate_of, push, run_in, run_of, slot, view, Edition,
};
use second::rng::Rng;
use second::{Bytes, Cell, Outcome, RunOutcome};

const ODD: Bytes = [0, 0xFF, 0, 0, 0];
const MINUS_65536: Bytes = [0x91, 0x80, 0, 0, 0];
const BAD: Bytes = [0, 0x7F, 1, 2, 3];

fn is_odd(x: Bytes) -> bool {
    x[..4] == ODD[..4]
}

/// What a literal leaves in each edition: one number, or a report.
fn leaves(literal: u8, operands: &[Bytes]) -> [Result<Bytes, u8>; 2] {
    BOTH.map(|edition| {
        let mut stack = operands.concat();
        let after = operate_of(edition, &mut stack, operands.len(), literal);
        match after.report {
            0 => {
                assert_eq!(after.depth, 1);
                Ok(slot(&stack, 0))
            }
            report => {
                assert_eq!(after.depth, operands.len());
                assert_eq!(stack, operands.concat());
                Err(report)
            }
        }
    })
}

fn differs(literal: u8, operands: &[Bytes], shipped: Bytes, mended: Bytes) {
    let words = format!("{literal} on {operands:02X?}");
    assert_eq!(
        leaves(literal, operands),
        [Ok(shipped), Ok(mended)],
        "{words}"
    );
}

fn same(literal: u8, operands: &[Bytes], both: Bytes) {
    differs(literal, operands, both, both);
}

#[test]
fn the_34th_digit_rounds_a_quotient_that_needs_a_doubling() {
    let (one, ten) = (short(1, 0), short(10, 0));
    let tenth = |last| [0x7D, 0x4C, 0xCC, 0xCC, last];
    differs(DIVIDE, &[one, ten], tenth(0xCC), tenth(0xCD));
    let full = [number(0x81, 0), number(0x84, 0x2000_0000)];
    differs(DIVIDE, &full, tenth(0xCC), tenth(0xCD));
    let thousandth = |last| [0x77, 0x03, 0x12, 0x6E, last];
    differs(
        DIVIDE,
        &[one, short(1000, 0)],
        thousandth(0x97),
        thousandth(0x98),
    );
    let two_thirds = |last| [0x80, 0x2A, 0xAA, 0xAA, last];
    differs(
        DIVIDE,
        &[short(2, 0), short(3, 0)],
        two_thirds(0xAA),
        two_thirds(0xAB),
    );
    let largest = |last| [0xFF, 0x2A, 0xAA, 0xAA, last];
    differs(
        DIVIDE,
        &[number(0xFF, 0), number(0x80, 0x4000_0000)],
        largest(0xAA),
        largest(0xAB),
    );
    // The 34th digit is 0: 4/7 is 0.92492492 and 492.. in hex, a doubling further on.
    same(
        DIVIDE,
        &[short(4, 0), short(7, 0)],
        [0x80, 0x12, 0x49, 0x24, 0x92],
    );
    // No doubling: the 33rd digit rounds in either edition, up in 15/13 and not in 5/3.
    same(
        DIVIDE,
        &[short(15, 0), short(13, 0)],
        [0x81, 0x13, 0xB1, 0x3B, 0x14],
    );
    same(
        DIVIDE,
        &[short(5, 0), short(3, 0)],
        [0x81, 0x55, 0x55, 0x55, 0x55],
    );
    // The ends of the exponent are as they were.
    let smallest = number(0x01, 0x8000_0000);
    same(DIVIDE, &[smallest, number(0x82, 0)], smallest);
    same(DIVIDE, &[number(0x01, 0), number(0x83, 0)], [0; 5]);
    let most = number(0xFF, 0x7FFF_FFFF);
    assert_eq!(leaves(DIVIDE, &[most, number(0x80, 0)]), [Err(6); 2]);
}

#[test]
fn a_short_sum_of_minus_65536_is_written_in_full() {
    for b5 in [0, 1, 0x5A, 0xFF] {
        let odd = [0, 0xFF, 0, 0, b5];
        for first in [1, 2, 536, 1_000, 32_768, 65_535] {
            let (x, rest) = (short(-first, b5), 65_536 - first);
            differs(ADD, &[x, short(-rest, 0x11)], odd, MINUS_65536);
            differs(SUBTRACT, &[x, short(rest, 0x11)], odd, MINUS_65536);
        }
        // -65,535 is short with the first number's b5, and -65,537 takes the full route.
        let x = short(-1_000, b5);
        same(ADD, &[x, short(-64_535, 7)], [0, 0xFF, 0x01, 0x00, b5]);
        same(ADD, &[x, short(-64_537, 7)], [0x91, 0x80, 0, 0x80, 0]);
        same(SUBTRACT, &[x, short(64_535, 7)], [0, 0xFF, 0x01, 0x00, b5]);
    }
    // The paper's own: -65,000 and -536.
    let pair = [[0, 0xFF, 0x18, 0x02, 0], [0, 0xFF, 0xE8, 0xFD, 0]];
    differs(ADD, &pair, ODD, MINUS_65536);
    // By the full route it is the same in both.
    let pair = [number(0x90, 0x8000_0000), short(-32_768, 0)];
    same(ADD, &pair, MINUS_65536);
}

#[test]
fn int_subtracts_as_its_edition_does() {
    differs(INT, &[[0x90, 0xFF, 0xFF, 0x80, 0]], ODD, MINUS_65536);
    differs(INT, &[[0x90, 0xFF, 0xFF, 0xFF, 0xFF]], ODD, MINUS_65536);
    same(INT, &[[0x90, 0xFF, 0xFF, 0, 0]], [0, 0xFF, 0x01, 0, 0]);
    same(INT, &[[0x90, 0xFF, 0xFE, 0x80, 0]], [0, 0xFF, 0x01, 0, 0]);
    let minus_one = [0x81, 0x80, 0, 0, 0];
    let one_lower = [0x91, 0x80, 0, 0x80, 0];
    differs(INT, &[MINUS_65536], minus_one, MINUS_65536);
    differs(INT, &[[0x91, 0x80, 0, 0, 1]], minus_one, one_lower);
    differs(INT, &[[0x91, 0x80, 0, 0x7F, 0xFF]], minus_one, one_lower);
    same(INT, &[one_lower], one_lower);
}

#[test]
fn truncation_at_145_clears_bits() {
    for b4 in [0, 1, 0x40, 0x7F] {
        for b5 in [0, 1, 0xFF] {
            differs(TRUNCATE, &[[0x91, 0x80, 0, b4, b5]], ODD, MINUS_65536);
            let plus = [0x91, 0, 0, 0, 0];
            same(TRUNCATE, &[[0x91, 0, 0, b4, b5]], plus);
        }
    }
    for (x, whole) in [
        ([0x91, 0x80, 0, 0x80, 0], [0x91, 0x80, 0, 0x80, 0]),
        ([0x91, 0x80, 0, 0xFF, 0xFF], [0x91, 0x80, 0, 0x80, 0]),
        ([0x91, 0x80, 1, 0x7F, 0xFF], [0x91, 0x80, 1, 0, 0]),
        ([0x91, 0x81, 0, 0x7F, 0xFF], [0x91, 0x81, 0, 0, 0]),
        ([0x90, 0x80, 0, 0x7F, 0xFF], [0, 0xFF, 0, 0x80, 0]),
        ([0x90, 0xFF, 0xFF, 0xFF, 0xFF], [0, 0xFF, 1, 0, 0]),
        ([0x92, 0x80, 0, 0x3F, 0xFF], [0x92, 0x80, 0, 0, 0]),
        ([0x92, 0x80, 0, 0x7F, 0xFF], [0x92, 0x80, 0, 0x40, 0]),
    ] {
        same(TRUNCATE, &[x], whole);
    }
}

#[test]
fn an_odd_operand_is_malformed_in_the_mended_edition_alone() {
    let good = number(0x83, 0x2000_0000);
    for b5 in [0, 1, 0xFF] {
        let odd = [0, 0xFF, 0, 0, b5];
        for literal in [3, 4, 5, 15] {
            for operands in [[odd, good], [good, odd], [odd, odd], [odd, short(7, 0)]] {
                let [shipped, mended] = leaves(literal, &operands);
                assert_ne!(shipped, Err(3), "{literal} on {operands:02X?}");
                assert_eq!(mended, Err(3), "{literal} on {operands:02X?}");
            }
        }
        for literal in [27, 39, 58, 61] {
            let [shipped, mended] = leaves(literal, &[odd]);
            assert!(shipped.is_ok(), "{literal}");
            assert_eq!(mended, Err(3), "{literal}");
        }
        for edition in BOTH {
            let mut stack = [good, odd, [0; 5]].concat();
            let copied = operate_of(edition, &mut stack, 2, DUPLICATE);
            assert_eq!((copied.report, slot(&stack, 2)), (0, odd));
            let exchanged = operate_of(edition, &mut stack, 2, EXCHANGE);
            assert_eq!((exchanged.report, slot(&stack, 0)), (0, odd));
            let deleted = operate_of(edition, &mut stack, 1, DELETE);
            assert_eq!((deleted.report, deleted.depth), (0, 0));
        }
        let mut stack = [0x77; 10];
        assert_eq!(push(&mut stack, 1, &odd).report, 0);
        assert_eq!(slot(&stack, 1), odd);
        assert_eq!(view(&stack, 2), Some(5));
        assert_eq!(cell(0, &stack, 2), Cell::Odd);
    }
    // One digit further it is -65,280 or -65,535, and a number as any other.
    for x in [[0, 0xFF, 0, 1, 0], [0, 0xFF, 1, 0, 0]] {
        let [shipped, mended] = leaves(NEGATE, &[x]);
        assert!(shipped.is_ok() && shipped == mended);
    }
}

#[test]
fn report_3_for_odd_has_its_place_in_the_order() {
    let (huge, tiny) = (number(0xFF, 0x7FFF_FFFF), number(0x01, 0));
    let report = |stack: &[u8], depth, literal| {
        let after = operate_of(Edition::Mended, &mut stack.to_vec(), depth, literal);
        after.report
    };
    let two = [ODD, ODD].concat();
    assert_eq!(report(&two, 3, 15), 1);
    assert_eq!(report(&[&two[..], &[0; 15_991]].concat(), 2, 15), 1);
    assert_eq!(report(&two, 2, 16), 5);
    assert_eq!(report(&two, 1, 15), 2);
    assert_eq!(report(&two, 0, 27), 2);
    assert_eq!(report(&two, 2, 49), 4);
    assert_eq!(report(&two, 2, 15), 3);
    // Before report 6: an odd divisor is no zero any more, and nothing of a sum is looked at.
    assert_eq!(report(&[huge, ODD].concat(), 2, 5), 3);
    assert_eq!(report(&[ODD, [0; 5]].concat(), 2, 5), 3);
    assert_eq!(report(&[huge, tiny].concat(), 2, 5), 6);
    assert_eq!(report(&[huge, [0; 5]].concat(), 2, 5), 6);
    // A slot that is not taken may be odd.
    assert_eq!(report(&[ODD, huge, ODD].concat(), 2, 27), 0);
}

/// What the mended edition leaves where the shipped one leaves this, by A3's three places alone.
fn mended_from(literal: u8, operands: &[Bytes], shipped: Bytes) -> Bytes {
    match literal {
        ADD | SUBTRACT | TRUNCATE if is_odd(shipped) => MINUS_65536,
        INT if is_odd(shipped) => MINUS_65536,
        // Int of what is truncated to -65,536: the number itself, or one lower than that.
        INT if operands[0][..3] == MINUS_65536[..3] && operands[0][3] < 0x80 => {
            if operands[0] == MINUS_65536 {
                MINUS_65536
            } else {
                [0x91, 0x80, 0, 0x80, 0]
            }
        }
        _ => shipped,
    }
}

#[test]
fn nothing_else_differs() {
    let mut rng = Rng::new(33);
    let (mut tried, mut differ) = (0, 0);
    while tried < 400_000 {
        let literal = rng.pick(&ALL);
        let [first, second] = match rng.below(8) {
            0 => minus_65536::pair(&mut rng, literal),
            1 => [minus_65536::whole(&mut rng), short(-1, 0)],
            _ => {
                let first = draw::any(&mut rng);
                [first, draw::beside(&mut rng, first)]
            }
        };
        let operands = match takes(literal) {
            Some(2) => vec![first, second],
            _ => vec![first],
        };
        // Division has demand 3, in a file of its own; an odd operand is refused.
        let odd = |&x: &Bytes| malformed_operand(Edition::Mended, x);
        if literal == DIVIDE || operands.iter().any(odd) {
            continue;
        }
        tried += 1;
        let words = format!("{literal} on {operands:02X?}");
        let [shipped, mended] = BOTH.map(|edition| {
            let mut stack = [&operands.concat()[..], &[0xE1; 9]].concat();
            let after = operate_of(edition, &mut stack, operands.len(), literal);
            (after, stack)
        });
        assert_eq!(shipped.0, mended.0, "{words}");
        let mut expected = shipped.1.clone();
        if shipped.0.report == 0 && !expected.is_empty() {
            let left = mended_from(literal, &operands, slot(&expected, 0));
            expected[..5].copy_from_slice(&left);
        }
        assert_eq!(mended.1, expected, "{words}");
        differ += u32::from(shipped.1 != mended.1);
    }
    assert!(differ > 1_000, "{differ}");
}

#[test]
fn a_mended_run_leaves_no_odd_slot_where_there_was_none() {
    let mut rng = Rng::new(34);
    let (mut tried, mut done, mut shipped_odd) = (0, 0, 0);
    while tried < 200_000 {
        let slots = 1 + rng.below(6) as usize;
        let mut stack = draw::stack(&mut rng, slots);
        let depth = rng.below(slots as u64 + 1) as usize;
        // Some that come to -65,536 in one way or another.
        minus_65536::on_top(&mut rng, 2, &mut stack, depth);
        let odd = |stack: &[u8], depth| (0..depth).any(|i| is_odd(slot(stack, i)));
        if odd(&stack, depth) {
            continue;
        }
        tried += 1;
        let mut list = draw::literals(&mut rng, 12);
        if rng.one_in(2) {
            list.insert(0, rng.pick(&[ADD, SUBTRACT, INT, TRUNCATE]));
        }
        let (mut shipped, before) = (stack.clone(), stack.clone());
        let after = run_of(Edition::Mended, &mut stack, depth, &list);
        assert!(
            !odd(&stack, after.depth),
            "{list:?} on {before:02X?} at {depth}"
        );
        done += u32::from(after.position > 1);
        let after = run_of(Edition::Shipped, &mut shipped, depth, &list);
        shipped_odd += u32::from(odd(&shipped, after.depth));
    }
    assert!(
        done > 50_000 && shipped_odd > 1_000,
        "{done}, {shipped_odd}"
    );
}

#[test]
fn the_old_calls_are_of_the_shipped_edition_and_the_new_ones_by_number() {
    assert_eq!(Edition::numbered(0), Some(Edition::Shipped));
    assert_eq!(Edition::numbered(1), Some(Edition::Mended));
    let tenth = [short(1, 0), short(10, 0)].concat();
    let mut stacks = [(); 4].map(|()| tenth.clone());
    let [old, shipped, mended, other] = &mut stacks;
    assert_eq!(reference::operate(old, 2, 5).report, 0);
    assert_eq!(operate_in(0, shipped, 2, 5).report, 0);
    assert_eq!(operate_in(1, mended, 2, 5).report, 0);
    assert_eq!(old, shipped);
    assert_eq!(shipped[..5], [0x7D, 0x4C, 0xCC, 0xCC, 0xCC]);
    assert_eq!(mended[..5], [0x7D, 0x4C, 0xCC, 0xCC, 0xCD]);
    for edition in 2..=255 {
        assert_eq!(Edition::numbered(edition), None);
        let refused = Outcome {
            report: 12,
            depth: 2,
        };
        assert_eq!(operate_in(edition, other, 2, 5), refused);
        let refused = RunOutcome {
            report: 12,
            position: 0,
            depth: 2,
        };
        assert_eq!(run_in(edition, other, 2, &[5, 49]), refused);
    }
    assert_eq!(*other, tenth);
}

#[test]
fn another_edition_is_refused_before_all_else() {
    let mut stack = [BAD, BAD].concat();
    let before = stack.clone();
    // Reports 1, 5, 2, 4 and 3 would apply, and an empty list would be done.
    for (depth, literal) in [(3, 15), (usize::MAX, 15), (2, 6), (0, 2), (2, 49), (2, 15)] {
        let after = operate_in(2, &mut stack, depth, literal);
        assert_eq!((after.report, after.depth), (12, depth));
        for list in [vec![], vec![literal], vec![2; 60_001]] {
            let after = run_in(255, &mut stack, depth, &list);
            let seen = (after.report, after.position, after.depth);
            assert_eq!(seen, (12, 0, depth));
        }
    }
    assert_eq!(stack, before);
    assert_eq!(operate_in(3, &mut [0; 16_001], 0, 2).report, 12);
}

#[test]
fn a_run_is_of_its_edition_from_the_first_literal_to_the_last() {
    // 1/10 twice, and their sum: in the mended edition 7D4CCCCCCD and its double.
    let (one, ten) = (short(1, 0), short(10, 0));
    let mut stack = [one, ten, [0; 5]].concat();
    let after = run_of(Edition::Mended, &mut stack, 2, &[DIVIDE, DUPLICATE, ADD]);
    assert_eq!((after.report, after.position, after.depth), (0, 3, 1));
    assert_eq!(slot(&stack, 0), [0x7E, 0x4C, 0xCC, 0xCC, 0xCD]);
    // The last literal alone goes by the edition: -7 is made -2, and -65,534 less 2 is -65,536.
    let mut stack = [short(-65_534, 9), short(-2, 9)].concat();
    let list = [NEGATE, NEGATE, INT, EXCHANGE, EXCHANGE, ADD];
    let after = run_of(Edition::Mended, &mut stack, 2, &list);
    assert_eq!((after.report, after.position, after.depth), (0, 6, 1));
    assert_eq!(slot(&stack, 0), MINUS_65536);
    // And so does the refusal of what is odd, after literals that don't mind it.
    let mut stack = [one, ODD, [0; 5]].concat();
    let list = [DUPLICATE, EXCHANGE, DELETE, EXCHANGE, NEGATE, EXCHANGE, INT];
    let after = run_of(Edition::Mended, &mut stack, 2, &list);
    assert_eq!((after.report, after.position, after.depth), (3, 6, 2));
    let after = run_of(Edition::Shipped, &mut [one, ODD, [0; 5]].concat(), 2, &list);
    assert_eq!((after.report, after.position, after.depth), (0, 7, 2));
}
