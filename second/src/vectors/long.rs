//! Long runs: a position that is cut to 8 bits, or to more, is another position. The top number
//! counts how many literals were done.

use super::Vectors;
use crate::case::{After, Call, Case};
use crate::draw::short;
use crate::Bytes;

/// One more on the top: x, x, x / x, and a sum. It takes two slots of room.
const ONE_MORE: [u8; 4] = [49, 49, 5, 15];

/// The same in seven literals, so that the literals at i and at i - 256 differ.
const ONE_MORE_IN_7: [u8; 7] = [49, 49, 5, 15, 61, 39, 58];

/// The sign changed, in five.
const NEGATED_IN_5: [u8; 5] = [49, 27, 1, 61, 2];

/// One less, until there is nothing to divide by.
const ONE_LESS: [u8; 4] = [49, 49, 5, 3];

const BAD: Bytes = [0x00, 0x7F, 0x01, 0x02, 0x03];

/// What comes after a refused literal, and must not be done.
const NOT_DONE: [u8; 3] = [2, 49, 27];

/// Lengths at which a ninth, a tenth, .. bit is needed, and others.
const LENGTHS: [usize; 27] = [
    249, 250, 254, 255, 256, 257, 258, 259, 300, 511, 512, 513, 1_000, 1_025, 2_049, 3_199, 3_200,
    4_096, 4_097, 10_007, 16_385, 32_767, 32_768, 32_769, 50_000, 59_999, 60_000,
];

/// Positions at which a literal is refused.
const POSITIONS: [usize; 7] = [254, 255, 256, 257, 300, 3_199, 8_193];

fn repeated(pattern: &[u8], length: usize) -> Vec<u8> {
    pattern.iter().copied().cycle().take(length).collect()
}

/// The slots and room for some more, in marked bytes.
fn with_room(slots: &[Bytes], room: usize) -> Vec<u8> {
    let mut stack = slots.concat();
    stack.resize(5 * (slots.len() + room), 0xE7);
    stack
}

/// A run on these slots, all of them taken, with so much room above them.
fn run(v: &mut Vectors, literals: Vec<u8>, slots: &[Bytes], room: usize) -> After {
    v.case(Case {
        call: Call::Run(literals),
        depth: slots.len(),
        stack: with_room(slots, room),
    })
}

/// The same, where it is known what the run comes to.
fn refused(
    v: &mut Vectors,
    report: u8,
    position: usize,
    literals: Vec<u8>,
    slots: &[Bytes],
    room: usize,
) {
    let after = run(v, literals, slots, room);
    assert_eq!((after.report, after.position), (report, Some(position)));
}

pub fn cases(v: &mut Vectors) {
    let one = short(1, 0);
    v.reason("long runs that are done whole: the top counts them, or its sign does");
    for length in LENGTHS {
        run(v, repeated(&ONE_MORE_IN_7, length), &[one], 3);
        run(v, repeated(&NEGATED_IN_5, length), &[BAD, one], 2);
        run(v, vec![27; length], &[BAD, one], 0);
    }
    v.reason("the same lists with one literal more than 60,000, and more");
    for length in [60_001, 60_256, 61_000] {
        run(v, repeated(&ONE_MORE_IN_7, length), &[one], 3);
        run(v, vec![27; length], &[one], 0);
    }
    at_positions(v);
    far_beyond(v);
}

/// So many literals that are done: some re-stackings, which change a number once, then whole
/// counts, then the last ones.
fn before(position: usize, last: &[u8]) -> Vec<u8> {
    let counted = position - last.len();
    let mut literals = vec![61; counted % 4];
    literals.extend(repeated(&ONE_MORE, counted / 4 * 4));
    literals.extend(last);
    literals
}

fn at(v: &mut Vectors, report: u8, position: usize, last: &[u8], literal: u8, slots: &[Bytes]) {
    let mut literals = before(position, last);
    literals.push(literal);
    literals.extend(NOT_DONE);
    refused(v, report, position, literals, slots, 2);
}

fn at_positions(v: &mut Vectors) {
    let x = short(1000, 0);
    v.reason("long runs refused with report 2: the stack is empty");
    for position in POSITIONS {
        at(v, 2, position, &[2], 27, &[x]);
        at(v, 2, position, &[], 15, &[x]);
    }
    v.reason("long runs refused with report 4: there is no room for a copy");
    for position in POSITIONS {
        at(v, 4, position, &[49, 49], 49, &[x]);
    }
    v.reason("long runs refused with report 5: no such literal");
    for position in POSITIONS.into_iter().chain([32_000]) {
        at(v, 5, position, &[], 6, &[BAD, x]);
    }
    v.reason("long runs refused with report 3: a malformed number comes to the top, or below it");
    for position in POSITIONS {
        at(v, 3, position, &[2], 61, &[BAD, x]);
        at(v, 3, position, &[], 3, &[BAD, x]);
        at(v, 3, position, &[], 4, &[BAD, x]);
    }
    v.reason("long runs refused with report 6: a number less itself is no divisor");
    for position in POSITIONS {
        at(v, 6, position, &[49, 49, 3], 5, &[x]);
    }
}

/// Lists that repeat until a literal is refused, so far on that the list could not be written out.
fn far_beyond(v: &mut Vectors) {
    v.reason("a count down to zero, and report 6");
    for (x, position) in [(64, 258), (799, 3_198), (8_200, 32_802), (14_000, 56_002)] {
        refused(
            v,
            6,
            position,
            repeated(&ONE_LESS, 60_000),
            &[short(x, 0)],
            2,
        );
    }
    let mut count_49 = ONE_MORE.repeat(49);
    count_49.extend([61, 61]);
    let slots: Vec<Bytes> = (1..=298).map(|x| short(x, 0)).collect();

    v.reason("each of 298 numbers is counted up and deleted, and report 2");
    let deleted = repeated(&[&count_49[..], &[2]].concat(), 60_000);
    refused(v, 2, 298 * 199, deleted.clone(), &slots, 2);

    v.reason("the same, and report 3: the lowest is malformed");
    let mut with_bad = slots.clone();
    with_bad[0] = BAD;
    refused(v, 3, 297 * 199 + 2, deleted, &with_bad, 2);

    v.reason("a number is counted up and copied 298 times, and report 4");
    let copied = repeated(&[&count_49[..], &[49]].concat(), 60_000);
    refused(v, 4, 298 * 199 + 1, copied, &slots[..1], 299);
}
