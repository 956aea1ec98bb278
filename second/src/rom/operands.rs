//! What the ROM's literals are given: well-formed numbers, many of them at the edges of the rules.

use crate::draw::{self, minus_65536, near};
use crate::reference::literals::{self, ADD, INT, MULTIPLY, SUBTRACT, TRUNCATE};
use crate::rng::Rng;
use crate::Bytes;

pub fn draw(rng: &mut Rng, literal: u8) -> Vec<Bytes> {
    match literal {
        ADD | SUBTRACT if rng.one_in(8) => minus_65536::pair(rng, literal).to_vec(),
        // The ROM doubles what is left of them one place at a time.
        ADD | SUBTRACT if rng.one_in(4) => near::any(rng).to_vec(),
        INT | TRUNCATE if rng.one_in(8) => vec![minus_65536::whole(rng)],
        _ => any(rng, literal),
    }
}

fn any(rng: &mut Rng, literal: u8) -> Vec<Bytes> {
    let well_formed = |b: &Bytes| !literals::malformed(*b);
    let first = draw::well_formed(rng);
    let mut all = vec![first];
    if literals::takes(literal) == Some(2) {
        // Of products, half at the edges of A1's rules.
        let second = if literal == MULTIPLY && rng.one_in(2) {
            draw::factor(rng, first)
        } else {
            draw::beside(rng, first)
        };
        all.push(if well_formed(&second) {
            second
        } else {
            draw::well_formed(rng)
        });
    }
    all
}
