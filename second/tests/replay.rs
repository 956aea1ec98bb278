//! Document 02's A5, a sentence a test, on the reference. Records and answers are written out by
//! hand. Then the plain Rust that speed is measured against, held to the reference.

use second::draw;
use second::recording::draw::{moved, recorded, steps};
use second::rng::Rng;
use second::Field::{self, Depth, Report, Top};
use second::{plain, reference, ReplayOutcome, Step};

/// Records of which the first nine bytes are given: literal, report, depth, top.
fn recording(records: &[&str]) -> Vec<u8> {
    let mut bytes = Vec::new();
    for record in records {
        let given = record.split_whitespace();
        bytes.extend(given.map(|byte| u8::from_str_radix(byte, 16).unwrap()));
        assert_eq!(bytes.len() % 16, 9, "{record}");
        bytes.extend([0; 7]);
    }
    bytes
}

/// Six by two: the count that the tests below change.
const PUSH_6: &str = "00 00 01 00  00 00 06 00 00";
const PUSH_2: &str = "00 00 02 00  00 00 02 00 00";
const DIVIDE: &str = "05 00 01 00  82 40 00 00 00";
const DELETE: &str = "02 00 00 00  00 00 00 00 00";

/// What comes of these records on a stack of four slots, of bytes that are no numbers: the count,
/// the field, the depth, and the slots below it.
fn comes_to(records: &[&str], count: usize, field: Option<Field>, left: &[[u8; 5]]) {
    on(&mut [0x31; 23], &recording(records), count, field, left);
}

fn on(stack: &mut [u8], given: &[u8], count: usize, field: Option<Field>, left: &[[u8; 5]]) {
    let answer = reference::replay(stack, given);
    let depth = left.len();
    let expected = ReplayOutcome {
        report: 0,
        count,
        field,
        depth,
    };
    assert_eq!(answer, expected, "{given:02X?}");
    assert_eq!(stack[..5 * depth], left.concat(), "{given:02X?}");
}

/// Refused with this number: all else is 0, and no byte of the stack changes.
fn refused(stack: &[u8], recording: &[u8], number: u8) {
    let mut after = stack.to_vec();
    let answer = reference::replay(&mut after, recording);
    let expected = ReplayOutcome {
        report: number,
        count: 0,
        field: None,
        depth: 0,
    };
    assert_eq!(answer, expected);
    assert_eq!(after, stack);
}

const SIX: [u8; 5] = [0, 0, 6, 0, 0];
const TWO: [u8; 5] = [0, 0, 2, 0, 0];
const THREE: [u8; 5] = [0x82, 0x40, 0, 0, 0];

#[test]
fn all_agree_with_the_record_count() {
    comes_to(&[], 0, None, &[]);
    comes_to(&[PUSH_6], 1, None, &[SIX]);
    comes_to(&[PUSH_6, PUSH_2], 2, None, &[SIX, TWO]);
    comes_to(&[PUSH_6, PUSH_2, DIVIDE], 3, None, &[THREE]);
    comes_to(&[PUSH_6, PUSH_2, DIVIDE, DELETE], 4, None, &[]);
}

#[test]
fn the_first_record_that_differs_and_its_first_differing_field() {
    for (divide, field) in [
        ("05 06 01 00  82 40 00 00 00", Report),
        ("05 00 02 00  82 40 00 00 00", Depth),
        ("05 00 01 01  82 40 00 00 00", Depth),
        ("05 00 01 00  83 40 00 00 00", Top),
        ("05 00 01 00  82 41 00 00 00", Top),
        ("05 00 01 00  82 40 01 00 00", Top),
        ("05 00 01 00  82 40 00 01 00", Top),
        ("05 00 01 00  82 40 00 00 01", Top),
        ("05 00 02 00  82 40 00 00 01", Depth),
        ("05 06 02 00  82 40 00 00 00", Report),
        ("05 06 01 00  82 40 00 00 01", Report),
        ("05 06 02 00  82 40 00 00 01", Report),
    ] {
        comes_to(&[PUSH_6, PUSH_2, divide], 2, Some(field), &[THREE]);
        // What comes after it is not done, whether it would differ or not.
        comes_to(&[PUSH_6, PUSH_2, divide, DELETE], 2, Some(field), &[THREE]);
        comes_to(&[PUSH_6, PUSH_2, divide, divide], 2, Some(field), &[THREE]);
    }
    let push = "00 04 01 00  00 00 06 00 00";
    comes_to(&[push, PUSH_2, DIVIDE], 0, Some(Report), &[SIX]);
}

#[test]
fn the_depth_has_its_low_byte_first() {
    let mut bytes = Vec::new();
    for depth in 1..=258u32 {
        let (low, high) = (depth as u8, (depth >> 8) as u8);
        bytes.extend([0, 0, low, high, 0, 0, 7, 0, 0, 0, 0, 0, 0, 0, 0, 0]);
    }
    let left = vec![[0, 0, 7, 0, 0]; 258];
    on(&mut [0; 1_290], &bytes, 258, None, &left);
    // Record 255 leaves 256 numbers: 00 01.
    assert_eq!(bytes[255 * 16 + 2..][..2], [0, 1]);
    for (number, field) in [(0, Some(Depth)), (255, Some(Depth)), (256, None)] {
        let mut swapped = bytes.clone();
        swapped.swap(number * 16 + 2, number * 16 + 3);
        let (count, left) = match field {
            Some(_) => (number, &left[..=number]),
            None => (258, &left[..]),
        };
        on(&mut [0; 1_290], &swapped, count, field, left);
    }
}

#[test]
fn for_a_push_the_pushed_bytes_are_not_compared() {
    // Refused, as malformed and for want of room, with another number on top.
    let malformed = "00 03 01 00  00 01 02 03 04";
    comes_to(&[PUSH_6, malformed, PUSH_2], 3, None, &[SIX, TWO]);
    let no_room = recording(&[PUSH_6, "00 04 01 00  00 00 02 00 00"]);
    on(&mut [0; 9], &no_room, 2, None, &[SIX]);
    // No room is asked before the form.
    let both = recording(&[PUSH_6, "00 04 01 00  00 01 02 03 04"]);
    on(&mut [0; 9], &both, 2, None, &[SIX]);
    // The report and the depth of a refused push are compared.
    let depth = "00 03 02 00  00 01 02 03 04";
    comes_to(&[PUSH_6, depth], 1, Some(Depth), &[SIX]);
    let report = "00 00 02 00  00 01 02 03 04";
    comes_to(&[PUSH_6, report], 1, Some(Report), &[SIX]);
}

#[test]
fn at_depth_0_the_top_is_zeros() {
    comes_to(&[PUSH_6, DELETE], 2, None, &[]);
    let deleted = "02 00 00 00  00 00 06 00 00";
    comes_to(&[PUSH_6, deleted], 1, Some(Top), &[]);
    let refused = "02 02 00 00  00 00 00 00 00";
    comes_to(&[refused, refused], 2, None, &[]);
    let slot_0 = "02 02 00 00  31 31 31 31 31";
    comes_to(&[slot_0], 0, Some(Top), &[]);
}

#[test]
fn an_agreeing_refusal_changes_nothing_and_replay_goes_on() {
    let too_few = "0F 02 01 00  00 00 06 00 00";
    let no_such = "06 05 02 00  00 00 02 00 00";
    let records = [PUSH_6, too_few, PUSH_2, no_such, DIVIDE];
    comes_to(&records, 5, None, &[THREE]);
    let push_0 = "00 00 02 00  00 00 00 00 00";
    let too_big = "05 06 02 00  00 00 00 00 00";
    let drop = "02 00 01 00  00 00 06 00 00";
    comes_to(&[PUSH_6, push_0, too_big, drop], 4, None, &[SIX]);
    let full = recording(&[PUSH_6, "31 04 01 00  00 00 06 00 00", DELETE]);
    on(&mut [0x31; 8], &full, 3, None, &[]);
}

#[test]
fn a_refusal_on_one_side_alone_is_a_report_that_differs() {
    let refused = "05 06 02 00  00 00 02 00 00";
    comes_to(&[PUSH_6, PUSH_2, refused], 2, Some(Report), &[THREE]);
    let push_0 = "00 00 02 00  00 00 00 00 00";
    let zero = [0; 5];
    comes_to(&[PUSH_6, push_0, DIVIDE], 2, Some(Report), &[SIX, zero]);
}

#[test]
fn what_is_no_recording_is_refused_with_8() {
    let stack = [0x31; 23];
    let good = recording(&[PUSH_6, PUSH_2, DIVIDE]);
    for part in (1..48).filter(|length| length % 16 != 0) {
        refused(&stack, &good[..part], 8);
    }
    for byte in (0..48).filter(|byte| byte % 16 >= 9) {
        for value in [1, 0x80, 0xFF] {
            let mut bytes = good.clone();
            bytes[byte] = value;
            refused(&stack, &bytes, 8);
            // Before any step: that the first record differs does not matter.
            bytes[1] = 5;
            refused(&stack, &bytes, 8);
        }
    }
    let longest = recording(&[PUSH_6, DELETE]).repeat(2_000);
    assert_eq!(longest.len(), 64_000);
    on(&mut [0x31; 23], &longest, 4_000, None, &[]);
    for more in [1, 15, 16, 17, 32, 1_000] {
        refused(&stack, &[&longest[..], &longest[..more]].concat(), 8);
    }
}

#[test]
fn report_1_comes_before_8() {
    let good = recording(&[PUSH_6, PUSH_2, DIVIDE]);
    on(&mut [0x31; 16_000], &good, 3, None, &[THREE]);
    for recording in [&good[..], &good[..7], &[], &[9; 16], &[0; 64_016]] {
        refused(&[0x31; 16_001], recording, 1);
    }
    // The shortest stacks are within the limits at depth 0.
    for length in 0..5 {
        let mut stack = vec![0x31; length];
        on(&mut stack, &good, 0, Some(Report), &[]);
        on(&mut stack, &[], 0, None, &[]);
        refused(&stack, &good[..7], 8);
    }
}

#[test]
fn plain_answers_as_the_reference() {
    let mut rng = Rng::new(12);
    for number in 0..60_000 {
        let stack = match number % 4_000 {
            0 => vec![0x31; 15_999 + rng.below(3) as usize],
            _ => {
                let slots = rng.below(9) as usize;
                draw::stack(&mut rng, slots)
            }
        };
        let count = match number % 4_000 {
            0 => 3_999 + rng.below(3),
            _ => rng.below(60),
        };
        let steps = steps(&mut rng, count as usize);
        let mut recording = recorded(&mut stack.clone(), &steps);
        moved(&mut rng, &mut recording);
        held_to_the_reference(&stack, &recording);
    }
}

/// Every byte of a record, of a push and of each literal, changed in every way.
#[test]
fn plain_sees_every_byte() {
    for literal in [1, 2, 3, 4, 5, 6, 15, 27, 39, 49, 58, 61] {
        let stack = [0x31; 14];
        let pushes = [[0x83, 0x20, 0, 0, 1], [0, 0, 3, 0, 9]].map(Step::Push);
        let steps = [&pushes[..], &[Step::Literal(literal)]].concat();
        let recording = recorded(&mut stack.clone(), &steps);
        for byte in 0..recording.len() {
            for value in 0..=255 {
                let mut recording = recording.clone();
                recording[byte] = value;
                held_to_the_reference(&stack, &recording);
            }
        }
    }
}

fn held_to_the_reference(stack: &[u8], recording: &[u8]) {
    let (mut a, mut b) = (stack.to_vec(), stack.to_vec());
    let expected = reference::replay(&mut a, recording);
    let (mut count, mut field, mut depth) = (usize::MAX, 0xFF, usize::MAX);
    let report = plain::replay(&mut b, recording, &mut count, &mut field, &mut depth);
    let numbers = (
        expected.report,
        expected.count,
        expected.field_number(),
        expected.depth,
    );
    assert_eq!((report, count, field, depth), numbers, "{recording:02X?}");
    assert_eq!(b, a, "{recording:02X?}");
}
