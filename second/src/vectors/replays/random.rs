//! Recordings drawn from a fixed seed: mostly such that agree for a while.

use super::replay;
use crate::draw;
use crate::recording::draw::{moved, recorded, steps};
use crate::rng::Rng;
use crate::vectors::Vectors;

const SEED: u64 = 1985;

pub fn cases(v: &mut Vectors) {
    let mut rng = Rng::new(SEED);
    v.reason("random: replays, as they were recorded or with something moved");
    for _ in 0..1_500 {
        let slots = rng.below(9) as usize;
        let stack = draw::stack(&mut rng, slots);
        let count = if rng.one_in(20) { 60 } else { 16 };
        let steps = {
            let count = rng.below(count) as usize;
            steps(&mut rng, count)
        };
        let mut recording = recorded(&mut stack.clone(), &steps);
        moved(&mut rng, &mut recording);
        replay(v, &stack, &recording);
    }
    v.reason("random: any bytes at all as a recording, those that have to be zero aside");
    for _ in 0..300 {
        let slots = rng.below(4) as usize;
        let stack = draw::stack(&mut rng, slots);
        let mut recording = Vec::new();
        for _ in 0..1 + rng.below(3) {
            recording.extend((0..9).map(|_| rng.byte() & rng.pick(&[0, 3, 0xFF])));
            recording.extend([0; 7]);
        }
        replay(v, &stack, &recording);
    }
}
