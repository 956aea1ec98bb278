//! Random calls through the C interface, each held to the reference in everything that can
//! be seen of it: the answer, what it wrote through each pointer, and every lent byte.

mod given;
mod recordings;
mod seen;
mod tally;

use crate::rng::Rng;
use given::Given;
pub use tally::Tally;

/// The case of this number. It depends on the seed and the number alone, so that a case
/// that differs can be had again.
pub fn one(seed: u64, number: u64, tally: &mut Tally) -> Result<(), String> {
    let mut rng = Rng::new(seed ^ number.wrapping_mul(0xD134_2543_DE82_EF95));
    let given = Given::draw(&mut rng);
    let expected = seen::reference(&given);
    let found = seen::native(&given, number.is_multiple_of(2));
    tally.count(&given.call, &expected);
    if expected == found {
        Ok(())
    } else {
        Err(format!(
            "{given}\n\nreference\n{expected}\n\nC interface\n{found}"
        ))
    }
}
