//! Numbers at A3's places: sums and whole parts of -65,536, and the next ones.

use super::{fifth, short};
use crate::reference::literals::SUBTRACT;
use crate::rng::Rng;
use crate::Bytes;

/// Two short numbers whose sum, or difference where that is the literal, is -65,536 or next to it.
pub fn pair(rng: &mut Rng, literal: u8) -> [Bytes; 2] {
    let first = 1 + rng.below(65_535) as i32;
    let second = (65_535 + rng.below(3) as i32 - first).min(65_535);
    let sign = if literal == SUBTRACT { 1 } else { -1 };
    [short(-first, fifth(rng)), short(sign * second, fifth(rng))]
}

/// A number that is truncated to -65,536, or one whose int that is, or one next to those.
pub fn whole(rng: &mut Rng) -> Bytes {
    let (b4, b5) = (rng.byte(), fifth(rng));
    match rng.below(6) {
        0 => [0x91, 0x80, 0, 0, 0],
        1 => [0x90, 0xFF, 0xFF, b4, b5],
        2 => {
            let exponent = rng.pick(&[0x90, 0x91, 0x92]);
            [exponent, rng.pick(&[0x00, 0x80, 0x81]), 0, b4, b5]
        }
        _ => [0x91, 0x80, rng.pick(&[0, 0, 1]), b4, b5],
    }
}

/// Such numbers on top of a stack that has room for them, or odd, in one of so many.
pub fn on_top(rng: &mut Rng, one_in: u64, stack: &mut [u8], depth: usize) {
    let slots = stack.as_chunks_mut::<5>().0;
    if depth < 2 || depth > slots.len() || !rng.one_in(one_in) {
        return;
    }
    match rng.below(5) {
        0 | 1 => {
            let literal = rng.pick(&[15, SUBTRACT]);
            slots[depth - 2..depth].copy_from_slice(&pair(rng, literal));
        }
        2 | 3 => slots[depth - 1] = whole(rng),
        _ => slots[depth - 1 - rng.below(2) as usize] = [0, 0xFF, 0, 0, fifth(rng)],
    }
}
