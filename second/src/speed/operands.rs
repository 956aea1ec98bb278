//! Numbers and stacks of numbers for the rows, drawn so that the literal accepts them.

use super::work::Stacks;
use crate::draw;
use crate::reference;
use crate::rng::Rng;
use crate::Bytes;

/// How many stacks a row has: so many that no processor learns from pass to pass which way each
/// one's branches go, as one does with a few thousand.
pub const STACKS: usize = 65_536;

/// What the operands are made of.
#[derive(Clone, Copy)]
pub enum Mix {
    Short,
    Full,
    Any,
}

/// Half the numbers full with exponents near one another, half short.
pub fn operand(rng: &mut Rng, mix: Mix) -> Bytes {
    let full = match mix {
        Mix::Short => false,
        Mix::Full => true,
        Mix::Any => rng.one_in(2),
    };
    if full {
        draw::number(exponent(rng), rng.word())
    } else {
        let value = rng.below(131_071) as i32 - 65_535;
        draw::short(value, 0)
    }
}

fn exponent(rng: &mut Rng) -> u8 {
    120 + rng.below(32) as u8
}

/// Two full numbers whose difference has just so many of its top bits cancelled.
pub fn near(rng: &mut Rng, bits: u32) -> [Bytes; 2] {
    let exponent = exponent(rng);
    let pair = draw::near::pair(rng, exponent, bits);
    let [first, second] = pair;
    let difference = reference::addition::subtract(reference::Edition::Shipped, first, second);
    assert_eq!(
        difference.map(|x| u32::from(x[0])),
        Some(u32::from(exponent) - bits)
    );
    pair
}

/// Stacks one after another, at depth 2, whose numbers the literal accepts.
pub fn accepted<const N: usize>(literal: u8, mut draw: impl FnMut() -> [Bytes; N]) -> Stacks {
    let mut bytes = Vec::with_capacity(5 * N * STACKS);
    while bytes.len() < 5 * N * STACKS {
        let stack = draw().concat();
        if reference::operate(&mut stack.clone(), 2, literal).report == reference::DONE {
            bytes.extend(stack);
        }
    }
    Stacks {
        bytes,
        step: 5 * N,
        len: 5 * N,
        depth: 2,
    }
}
