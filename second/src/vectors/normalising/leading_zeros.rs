//! The number of leading zeros, of which document 02 says all there is; and that the stack stays.

use super::{with_zeros, Vectors, SEED};
use crate::case::{Call, Case};
use crate::draw;
use crate::rng::Rng;
use crate::Bytes;

const GOOD: Bytes = [0x82, 0x40, 0, 0, 0];
const BAD: Bytes = [0, 0x7F, 1, 2, 3];
const ODD: Bytes = [0, 0xFF, 0, 0, 0x5A];

/// On a stack of its own, which stays as it is.
fn zeros_on(v: &mut Vectors, t: u32, depth: usize, stack: Vec<u8>) -> usize {
    let after = v.case(Case {
        call: Call::LeadingZeros(t),
        depth,
        stack: stack.clone(),
    });
    assert_eq!((after.report, after.depth, after.stack), (0, depth, stack));
    after.position.expect("a number of zeros")
}

/// Where the number is known.
fn known(v: &mut Vectors, t: u32, zeros: usize) {
    let (stack, depth) = v.among_neighbours(&[GOOD]);
    assert_eq!(zeros_on(v, t, depth, stack), zeros, "{t:08X}");
}

pub fn cases(v: &mut Vectors) {
    v.reason("A4: leading zeros that are known by hand");
    for (t, zeros) in [
        (0, 32),
        (1, 31),
        (2, 30),
        (3, 30),
        (0xFF, 24),
        (0x100, 23),
        (0xFFFF, 16),
        (0x1_0000, 15),
        (0x00FF_0000, 8),
        (0x7FFF_FFFF, 1),
        (0x8000_0000, 0),
        (0xFFFF_FFFF, 0),
    ] {
        known(v, t, zeros);
    }
    v.reason("A4: each power of two, one less and one more");
    for place in 0..32 {
        let (power, zeros) = (1u32 << place, 31 - place);
        known(v, power, zeros);
        known(v, power - 1, zeros + 1);
        // 1 and 1 are the next power.
        known(v, power + 1, if place == 0 { 30 } else { zeros });
    }
    v.reason("A4: each number of zeros, with digits below the top one");
    let mut rng = Rng::new(SEED);
    for zeros in 0..32 {
        for t in with_zeros(&mut rng, zeros) {
            known(v, t, zeros as usize);
        }
    }
    on_any_stack(v);
}

/// The view and the cell are those of the stack as it is.
fn on_any_stack(v: &mut Vectors) {
    v.reason("A4: leading zeros beside any stack: empty, odd, malformed, too deep, too long");
    let three = [GOOD, ODD, BAD].concat();
    for depth in [0, 1, 2, 3, 4, usize::MAX, usize::MAX / 5 + 1] {
        for t in [0, 1, 0x0001_0203, 0x8000_0000] {
            zeros_on(v, t, depth, three.clone());
        }
    }
    for length in [0, 4, 15_999, 16_000, 16_001, 17_000] {
        let mut stack = GOOD.repeat(3);
        stack.resize(length, 0);
        for depth in [0, 1] {
            zeros_on(v, 0x0300_0000, depth, stack.clone());
        }
    }
    v.reason("A4: random: leading zeros of numbers of any length");
    let mut rng = Rng::new(SEED);
    for _ in 0..100 {
        let slots = rng.below(4) as usize;
        let stack = draw::stack(&mut rng, slots);
        let depth = draw::depth(&mut rng, slots);
        let t = draw::of_any_length(&mut rng);
        zeros_on(v, t, depth, stack);
    }
}
