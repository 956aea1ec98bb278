//! Deep stacks: a slot's number that is cut to 8 bits, or to more, leads to another number.

use super::Vectors;
use crate::case::{Call, Case};
use crate::reference::literals::ALL;
use crate::Bytes;

/// Seven numbers, of every form. 256 is no multiple of 7, so slot i and slot i - 256 hold different
/// numbers. Cut to 8 bits, only the slots 1,792 to 2,047 lead to the same one, and none has its top
/// there.
const SEVEN: [Bytes; 7] = [
    [0x83, 0x20, 0x00, 0x00, 0x01],
    [0x00, 0xFF, 0xF9, 0xFF, 0x00],
    [0x7F, 0xC0, 0x12, 0x34, 0x56],
    [0x00, 0x00, 0xFF, 0xFF, 0x5A],
    [0x91, 0x80, 0x00, 0x80, 0x00],
    [0x00, 0xFF, 0x00, 0x00, 0x33],
    [0xA0, 0x7F, 0xFF, 0xFF, 0xFF],
];

const BAD: Bytes = [0x00, 0x7F, 0x01, 0x02, 0x03];

/// Where the number of a slot, or how many there are, needs a ninth bit, and some way beyond.
const ABOUT_256: [usize; 5] = [255, 256, 257, 258, 300];

/// So many slots of the seven in turn, and some bytes after the last.
fn sevens(slots: usize, stray: usize) -> Vec<u8> {
    let bytes = SEVEN.concat().into_iter().cycle();
    bytes.take(5 * slots + stray).collect()
}

fn put(stack: &mut [u8], slot: usize, number: Bytes) {
    stack[5 * slot..5 * slot + 5].copy_from_slice(&number);
}

fn case(v: &mut Vectors, call: Call, depth: usize, stack: Vec<u8>) {
    v.case(Case { call, depth, stack });
}

pub fn cases(v: &mut Vectors) {
    literals(v);
    malformed(v);
    pushes(v);
    seen(v);
    runs(v);
}

fn literals(v: &mut Vectors) {
    v.reason("deep stacks: a literal at every depth from 250 to 300");
    for depth in 250..=300 {
        let literal = ALL[depth % ALL.len()];
        case(v, Call::Operate(literal), depth, sevens(depth + 1, 2));
    }
    v.reason("deep stacks: each literal about the depths 256, 512 and 3,200, with room for one more or none");
    for literal in ALL {
        for depth in ABOUT_256 {
            case(v, Call::Operate(literal), depth, sevens(depth + 1, 0));
        }
        case(v, Call::Operate(literal), 514, sevens(515, 4));
        case(v, Call::Operate(literal), 3_200, sevens(3_200, 0));
    }
    for depth in [255, 256, 257, 300, 514] {
        case(v, Call::Operate(49), depth, sevens(depth, 4));
    }
    case(v, Call::Operate(49), 3_199, sevens(3_200, 0));
}

fn malformed(v: &mut Vectors) {
    v.reason("deep stacks: a malformed number on top or below it, where a slot 256 lower has a good one, and the other way round");
    for depth in [257, 258, 300] {
        for slot in [depth - 1, depth - 2, depth - 257] {
            let mut stack = sevens(depth + 1, 1);
            put(&mut stack, slot, BAD);
            for literal in [3, 4, 39, 49] {
                case(v, Call::Operate(literal), depth, stack.clone());
            }
            case(v, Call::Cell(0), depth, stack);
        }
    }
}

fn pushes(v: &mut Vectors) {
    v.reason("deep stacks: pushes, with room and without");
    let number = vec![0x85, 0x11, 0x22, 0x33, 0x44];
    for depth in ABOUT_256.into_iter().chain([513]) {
        case(v, Call::Push(number.clone()), depth, sevens(depth + 2, 3));
        case(v, Call::Push(number.clone()), depth, sevens(depth, 4));
    }
    for depth in [3_199, 3_200] {
        case(v, Call::Push(number.clone()), depth, sevens(3_200, 0));
    }
}

fn seen(v: &mut Vectors) {
    v.reason("deep stacks: the view and the cell at every depth from 250 to 300, and deeper");
    for depth in 250..=300 {
        case(v, Call::Cell(0), depth, sevens(depth, depth % 5));
    }
    for depth in [511, 512, 513, 514, 1_025, 2_049] {
        case(v, Call::Cell(0), depth, sevens(depth, 0));
    }
    for depth in [3_199, 3_200, 3_201] {
        case(v, Call::Cell(0), depth, sevens(3_200, 0));
    }
}

fn runs(v: &mut Vectors) {
    v.reason("deep stacks: runs on the top, and runs that go through all slots down to the last");
    let top = [1, 15, 49, 4, 49, 27, 1, 3, 39, 61, 2];
    for depth in ABOUT_256.into_iter().chain([514, 3_199]) {
        case(v, Call::Run(top.to_vec()), depth, sevens(depth + 1, 0));
    }
    for depth in [257, 258, 300, 514] {
        for pattern in [&[15][..], &[27, 3], &[1, 2], &[58, 15], &[39, 4]] {
            let length = (depth - 1) * pattern.len();
            let literals = pattern.iter().copied().cycle().take(length);
            case(v, Call::Run(literals.collect()), depth, sevens(depth, 2));
        }
    }
    let literals = vec![15; 3_199];
    case(v, Call::Run(literals), 3_200, sevens(3_200, 0));
    v.reason("deep stacks: copies from the first slot to the last");
    for slots in [257, 258, 300] {
        case(v, Call::Run(vec![49; slots - 1]), 1, sevens(slots, 3));
        let literals = [27, 49].repeat(slots - 1);
        case(v, Call::Run(literals), 1, sevens(slots, 0));
    }
    case(v, Call::Run([27, 49].repeat(3_199)), 1, sevens(3_200, 0));
}
