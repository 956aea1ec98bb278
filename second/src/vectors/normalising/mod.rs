//! Document 02's A4, "Normalising in one go": the number of leading zeros by itself, and sums that are
//! shifted by so many places.

mod leading_zeros;
mod lines;
mod near;

use super::Vectors;
use crate::rng::Rng;

const SEED: u64 = 1984;

/// Numbers with so many leading zeros, and below their top digit alternating ones, all set, or random
/// ones.
fn with_zeros(rng: &mut Rng, zeros: u32) -> [u32; 3] {
    let digits = [0xAAAA_AAAA, 0xFFFF_FFFF, rng.word() | 0x8000_0000];
    digits.map(|digits| digits >> zeros)
}

pub fn cases(v: &mut Vectors) {
    leading_zeros::cases(v);
    near::cases(v);
    lines::cases(v);
}
