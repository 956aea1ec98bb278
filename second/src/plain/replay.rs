//! A recording: a loop over its records with every literal inlined, as a run has it. Pushes are
//! half of the records, so they are branched to before the table of literals: that takes an
//! instruction more than an entry of it, and a tenth less time. Which field differs is found out
//! apart.

use super::number::{bits, store_bits, Slot};
use super::run::step;
use super::{LONGEST_STACK, SHIPPED};
use crate::reference::replay::{LONGEST_RECORDING, NOT_A_RECORDING, RECORD};
use crate::reference::{DONE, LIMITS, MALFORMED, NO_ROOM};
use std::hint::cold_path;

const REPORT: u8 = 1;
const DEPTH: u8 = 2;
const TOP: u8 = 3;

#[inline(always)]
pub fn replay(
    stack: &mut [u8],
    recording: &[u8],
    count: &mut usize,
    field: &mut u8,
    depth: &mut usize,
) -> u8 {
    (*count, *field, *depth) = (0, 0, 0);
    if stack.len() > LONGEST_STACK {
        return LIMITS;
    }
    let (records, part) = recording.as_chunks();
    if recording.len() > LONGEST_RECORDING || !part.is_empty() || !ends_are_zero(records) {
        return NOT_A_RECORDING;
    }
    let slots = stack.as_chunks_mut().0;
    let mut now = 0;
    *count = records.len();
    for record in records {
        let (head, number) = (head(record), five(record));
        let report;
        // Asked of the word, or the compiler makes an entry of the table of it after all.
        if head & 0xFF == 0 {
            report = push(slots, now, number);
            if report == DONE {
                now += 1;
                // Literal and report are 0.
                if head == (now as u32) << 16 {
                    continue;
                }
            } else if record[1] == report && told_depth(record) == now {
                cold_path();
                continue;
            }
        } else {
            (report, now) = step::<SHIPPED>(slots, now, record[0]);
            if record[1] == report && told_depth(record) == now && is_top(slots, now, number) {
                continue;
            }
        }
        cold_path();
        *field = first_difference(record, report, now);
        *count = records.element_offset(record).unwrap_or(0);
        break;
    }
    *depth = now;
    DONE
}

/// Bytes 0 to 3 of a record as one word: the literal, the report and the depth.
#[inline(always)]
fn head(record: &[u8; RECORD]) -> u32 {
    u32::from_le_bytes(*record.first_chunk().unwrap())
}

#[inline(always)]
fn told_depth(record: &[u8; RECORD]) -> usize {
    u16::from_le_bytes([record[2], record[3]]).into()
}

/// Which it is, of a record that differs.
#[cold]
#[inline(never)]
fn first_difference(record: &[u8; RECORD], report: u8, depth: usize) -> u8 {
    if record[1] != report {
        REPORT
    } else if told_depth(record) != depth {
        DEPTH
    } else {
        TOP
    }
}

/// Bytes 9 to 15 of all records, none of which is looked at by itself. By eights it is little more
/// than an instruction a record; left to itself, the compiler shuffles pairs together.
#[inline(always)]
fn ends_are_zero(records: &[[u8; RECORD]]) -> bool {
    let end = |all, record: &[u8; RECORD]| all | u64::from_le_bytes(*record.last_chunk().unwrap());
    let (eights, rest) = records.as_chunks::<8>();
    let all = eights
        .iter()
        .fold(0, |all, eight| eight.iter().fold(all, end));
    rest.iter().fold(all, end) >> 8 == 0
}

#[inline(always)]
fn five(record: &[u8; RECORD]) -> &Slot {
    record[4..9].try_into().unwrap()
}

#[inline(always)]
fn push(slots: &mut [Slot], depth: usize, number: &Slot) -> u8 {
    let Some(free) = slots.get_mut(depth) else {
        cold_path();
        return NO_ROOM;
    };
    let head = u32::from_be_bytes(*number.first_chunk().unwrap());
    if (0x0001_0000..0x00FF_0000).contains(&head) {
        cold_path();
        return MALFORMED;
    }
    // In the widths in which a literal reads it: a load that spans two stores has to wait.
    free[0] = number[0];
    store_bits(free, bits(number));
    DONE
}

/// At depth 0 there is no slot below, and the top is zeros.
#[inline(always)]
fn is_top(slots: &[Slot], depth: usize, top: &Slot) -> bool {
    match slots.get(depth.wrapping_sub(1)) {
        Some(slot) => u32::from(slot[0] ^ top[0]) | (bits(slot) ^ bits(top)) == 0,
        None => *top == [0; 5],
    }
}
