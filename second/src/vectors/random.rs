//! Cases drawn from a fixed seed.

use super::Vectors;
use crate::case::{Call, Case};
use crate::draw;
use crate::rng::Rng;

const SEED: u64 = 1982;

pub fn cases(v: &mut Vectors) {
    let mut rng = Rng::new(SEED);
    v.reason("random: one literal on numbers near one another");
    for _ in 0..4_500 {
        let slots = 2 + rng.below(3) as usize;
        let stack = draw::stack(&mut rng, slots);
        let call = Call::Operate(draw::literal(&mut rng));
        let depth = draw::depth(&mut rng, slots);
        v.case(Case { call, depth, stack });
    }
    v.reason("random: runs");
    for _ in 0..1_500 {
        let slots = 1 + rng.below(6) as usize;
        let stack = draw::stack(&mut rng, slots);
        let count = rng.below(12) as usize;
        let call = Call::Run(draw::literals(&mut rng, count));
        let depth = draw::depth(&mut rng, slots);
        v.case(Case { call, depth, stack });
    }
    v.reason("random: pushes");
    for _ in 0..500 {
        let slots = rng.below(4) as usize;
        let stack = draw::stack(&mut rng, slots);
        let len = if rng.one_in(6) { rng.below(8) } else { 5 } as usize;
        let mut number = draw::any(&mut rng).to_vec();
        number.resize(len, 0x42);
        let depth = draw::depth(&mut rng, slots);
        v.case(Case {
            call: Call::Push(number),
            depth,
            stack,
        });
    }
    v.reason("random: any bytes at all");
    for _ in 0..1_500 {
        let len = rng.below(26);
        let stack: Vec<u8> = (0..len).map(|_| rng.byte()).collect();
        let bytes: Vec<u8> = (0..rng.below(8)).map(|_| rng.byte()).collect();
        let call = match rng.below(3) {
            0 => Call::Operate(rng.byte()),
            1 => Call::Push(bytes),
            _ => Call::Run(bytes),
        };
        let depth = rng.below(7) as usize;
        v.case(Case { call, depth, stack });
    }
}
