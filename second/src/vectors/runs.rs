//! Runs: they do each literal, stop at the first that is refused, and say where.

use super::{edge_numbers, Vectors};
use crate::case::{Call, Case};
use crate::draw::{number, short};
use crate::reference::literals::ALL;
use crate::Bytes;

const SIGN: u32 = 0x8000_0000;

fn run(v: &mut Vectors, literals: &[u8], depth: usize, slots: &[Bytes], room: usize) {
    let mut stack = slots.concat();
    for i in 0..room {
        stack.push(0xE0 | i as u8 & 15);
    }
    v.case(Case {
        call: Call::Run(literals.to_vec()),
        depth,
        stack,
    });
}

pub fn cases(v: &mut Vectors) {
    let three = [
        number(0x83, 0x2000_0000),
        short(-7, 0),
        number(0x7F, 0xC000_0000),
    ];
    v.reason("every two literals one after the other, and the last then once more");
    for first in ALL {
        for second in ALL {
            run(v, &[first, second], 3, &three, 8);
            run(v, &[first, second, second], 2, &three, 0);
        }
    }
    v.reason("each report at each position of a run");
    for position in 0..6 {
        let before = [49, 27, 1, 49, 15, 61];
        for (refused, top) in [
            (4, number(0xFE, 0x4000_0000)),
            (5, short(0, 0)),
            (6, three[0]),
            (15, [0, 1, 2, 3, 4]),
        ] {
            let mut literals = before[..position].to_vec();
            literals.push(refused);
            literals.push(2);
            run(v, &literals, 2, &[three[1], top], 12);
            run(v, &literals, 2, &[top, three[1]], 7);
        }
        let mut literals = before[..position].to_vec();
        literals.extend([2; 6]);
        run(v, &literals, 2, &three, 10);
        let mut literals = before[..position].to_vec();
        literals.extend([49; 6]);
        run(v, &literals, 2, &three, 10);
    }
    v.reason("empty runs at every depth");
    for depth in 0..=5 {
        run(v, &[], depth, &three, 3);
    }
    v.reason("x less its int, and its int less its truncation, over the edges of the rules");
    for x in edge_numbers() {
        run(v, &[49, 39, 3], 1, &[x], 9);
        run(v, &[49, 58, 1, 39, 1, 3], 1, &[x], 5);
    }
    v.reason("a quota: votes over seats and one, whole part, and one more");
    for votes in (1..=60).map(|n| n * 1087) {
        for seats in 2..=5 {
            let slots = [short(1, 0), short(votes, 0), short(seats + 1, 0)];
            run(v, &[5, 39, 15], 3, &slots, 2);
        }
    }
    v.reason("a transfer value: surplus over papers, times the papers of a pile, whole part");
    for papers in (1..=60).map(|n| n * 1087) {
        for pile in [2, 61, 953] {
            let slots = [short(pile, 0), short(papers / 3, 0), short(papers, 0)];
            run(v, &[5, 4, 39], 3, &slots, 2);
        }
    }
    v.reason("squares until the number is too big or too small, and powers on either sign");
    for count in 1..=9 {
        for x in [
            short(2, 0),
            short(-3, 0),
            number(0x80, 0x7FFF_FFFF),
            number(0x7F, SIGN),
        ] {
            run(v, &[49, 4].repeat(count), 1, &[x], 7);
            let mut literals = vec![49; count];
            literals.extend(vec![4; count]);
            run(v, &literals, 1, &[x], 40);
        }
    }
    v.reason("doublings until the number is too big");
    for count in [1, 2, 127, 128, 129, 130] {
        let mut literals = [49, 15].repeat(count);
        literals.push(27);
        run(v, &literals, 1, &three, 6);
    }
}
