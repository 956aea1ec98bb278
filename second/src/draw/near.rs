//! Full numbers whose difference has its top bits cancelled, so that the ending makes up for as many
//! places.

use super::number;
use crate::rng::Rng;
use crate::Bytes;

const SIGN: u32 = 0x8000_0000;

/// Two of one sign and one exponent, with just so many bits cancelled, 1 to 31.
pub fn pair(rng: &mut Rng, exponent: u8, bits: u32) -> [Bytes; 2] {
    let sign = rng.word() & SIGN;
    let apart = (rng.word() | SIGN) >> bits;
    let low = rng.below(u64::from(SIGN - apart)) as u32;
    let mut pair = [low, low + apart].map(|word| number(exponent, word | sign));
    if rng.one_in(2) {
        pair.reverse();
    }
    pair
}

/// Two of one sign on either side of a power of two, with about so many bits cancelled, 2 to 31. The
/// larger has the exponent, from 2 on, and the smaller one less: a bit of it is rounded away.
pub fn about_a_power(rng: &mut Rng, exponent: u8, bits: u32) -> [Bytes; 2] {
    let sign = rng.word() & SIGN;
    let apart = (rng.word() | SIGN) >> bits;
    let above = rng.below(apart.into()) as u32;
    let below = 2 * (apart - above) - rng.below(2) as u32;
    let mut pair = [
        number(exponent, above | sign),
        number(exponent - 1, (SIGN - below) | sign),
    ];
    if rng.one_in(2) {
        pair.reverse();
    }
    pair
}

/// Any of these, to be subtracted or added: the exponent of what is left is often about 0, or that of
/// the larger the greatest.
pub fn any(rng: &mut Rng) -> [Bytes; 2] {
    let bits = 1 + rng.below(31) as u32;
    let exponent = match rng.below(6) {
        0 | 1 => (bits as u8 + rng.below(4) as u8).saturating_sub(2),
        2 => 254 + rng.below(2) as u8,
        _ => rng.byte(),
    };
    let mut two = if bits > 1 && exponent > 1 && rng.one_in(3) {
        about_a_power(rng, exponent, bits)
    } else {
        pair(rng, exponent.max(1), bits)
    };
    if rng.one_in(2) {
        two[1][1] ^= 0x80;
    }
    two
}

/// Such numbers on top of a stack that has room for them, in one of so many.
pub fn on_top(rng: &mut Rng, one_in: u64, stack: &mut [u8], depth: usize) {
    let slots = stack.as_chunks_mut::<5>().0;
    if depth >= 2 && depth <= slots.len() && rng.one_in(one_in) {
        slots[depth - 2..depth].copy_from_slice(&any(rng));
    }
}
