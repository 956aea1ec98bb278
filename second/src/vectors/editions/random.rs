//! Cases in the mended edition drawn from a fixed seed, and some in the shipped one by its number.

use super::{Vectors, MENDED, SHIPPED};
use crate::case::{Call, Case};
use crate::draw::{self, minus_65536};
use crate::rng::Rng;

const SEED: u64 = 1983;

pub fn cases(v: &mut Vectors) {
    let mut rng = Rng::new(SEED);
    v.reason("A3: random: one literal in the mended edition");
    for _ in 0..2_000 {
        one(v, &mut rng, MENDED);
    }
    v.reason("A3: random: runs in the mended edition");
    for _ in 0..800 {
        run(v, &mut rng, MENDED);
    }
    v.reason("A3: random: the shipped edition by its number, and others");
    for i in 0..400 {
        let edition = if i % 8 == 0 { rng.byte() } else { SHIPPED };
        one(v, &mut rng, edition);
        if i % 2 == 0 {
            run(v, &mut rng, edition);
        }
    }
    v.reason("A3: random: any bytes at all");
    for _ in 0..400 {
        let stack: Vec<u8> = (0..rng.below(26)).map(|_| rng.byte()).collect();
        let edition = rng.below(3) as u8;
        let call = if rng.one_in(2) {
            Call::OperateIn(edition, rng.byte())
        } else {
            Call::RunIn(edition, (0..rng.below(8)).map(|_| rng.byte()).collect())
        };
        let depth = rng.below(7) as usize;
        v.case(Case { call, depth, stack });
    }
}

fn one(v: &mut Vectors, rng: &mut Rng, edition: u8) {
    let slots = 2 + rng.below(3) as usize;
    let mut stack = draw::stack(rng, slots);
    let depth = draw::depth(rng, slots);
    minus_65536::on_top(rng, 5, &mut stack, depth);
    let call = Call::OperateIn(edition, draw::literal(rng));
    v.case(Case { call, depth, stack });
}

fn run(v: &mut Vectors, rng: &mut Rng, edition: u8) {
    let slots = 1 + rng.below(6) as usize;
    let mut stack = draw::stack(rng, slots);
    let depth = draw::depth(rng, slots);
    minus_65536::on_top(rng, 5, &mut stack, depth);
    let count = rng.below(12) as usize;
    let call = Call::RunIn(edition, draw::literals(rng, count));
    v.case(Case { call, depth, stack });
}
