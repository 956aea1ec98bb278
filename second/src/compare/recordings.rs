//! Stacks and recordings for a random replay.

use crate::draw;
use crate::recording::draw::{moved, recorded, steps};
use crate::rng::Rng;
use crate::Step;

/// The recording is as the reference makes it on this stack, or has something moved.
pub fn draw(rng: &mut Rng) -> (Vec<u8>, Box<[u8]>) {
    let (stack, steps) = if rng.one_in(300) {
        long(rng)
    } else {
        let count = rng.below(48) as usize;
        (stack(rng), steps(rng, count))
    };
    let mut recording = recorded(&mut stack.clone(), &steps);
    moved(rng, &mut recording);
    (stack, recording.into())
}

/// Mostly a few slots; else a length at an edge: of no slot, of one, the most, and too many.
fn stack(rng: &mut Rng) -> Vec<u8> {
    match rng.below(40) {
        0 => repeated(rng, 0),
        1 => repeated(rng, 4),
        2 => repeated(rng, 5),
        3 => longest(rng),
        4 if rng.one_in(4) => {
            let more = rng.below(100) as usize;
            repeated(rng, 16_001 + more)
        }
        5..=9 => (0..rng.below(61)).map(|_| rng.byte()).collect(),
        _ => {
            let slots = 1 + rng.below(12) as usize;
            draw::stack(rng, slots)
        }
    }
}

fn longest(rng: &mut Rng) -> Vec<u8> {
    let less = rng.below(3) as usize;
    repeated(rng, 16_000 - less)
}

/// Any seven bytes over and over: quickly drawn, and every slot holds something.
fn repeated(rng: &mut Rng, length: usize) -> Vec<u8> {
    let seven = &rng.bits().to_le_bytes()[..7];
    seven.iter().copied().cycle().take(length).collect()
}

/// Some hundred records, or about 4,000, which is the most; half of them mostly push.
fn long(rng: &mut Rng) -> (Vec<u8>, Vec<Step>) {
    let count = match rng.below(4) {
        0 => 3_998 + rng.below(5),
        _ => 200 + rng.below(800),
    };
    let mut steps = steps(rng, count as usize);
    if rng.one_in(2) {
        for step in &mut steps {
            if !rng.one_in(6) {
                *step = Step::Push(draw::any(rng));
            }
        }
    }
    (longest(rng), steps)
}
