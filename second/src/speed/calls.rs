//! The nine calls of a side, all of the C interface's types.

use crate::native::*;
use crate::plain::{self, SHIPPED};
use crate::Cell;
use std::slice::{from_raw_parts, from_raw_parts_mut};

pub struct Calls {
    pub operate: unsafe extern "C" fn(*mut u8, usize, *mut usize, u8) -> u8,
    pub operate_in: unsafe extern "C" fn(u8, *mut u8, usize, *mut usize, u8) -> u8,
    pub push: unsafe extern "C" fn(*mut u8, usize, *mut usize, *const u8, usize) -> u8,
    pub run: unsafe extern "C" fn(*mut u8, usize, *mut usize, *const u8, usize, *mut usize) -> u8,
    pub run_in: RunIn,
    pub view: unsafe extern "C" fn(*const u8, usize, usize, *mut usize) -> usize,
    pub cell: unsafe extern "C" fn(u8, *const u8, usize, usize, *mut u8, *mut f64) -> u8,
    pub replay: Replay,
    pub leading_zeros: unsafe extern "C" fn(u32) -> u8,
}

pub type RunIn =
    unsafe extern "C" fn(u8, *mut u8, usize, *mut usize, *const u8, usize, *mut usize) -> u8;

pub type Replay =
    unsafe extern "C" fn(*mut u8, usize, *const u8, usize, *mut usize, *mut u8, *mut usize) -> u8;

pub static OURS: Calls = Calls {
    operate: trenailer_operate,
    operate_in: trenailer_operate_in,
    push: trenailer_push,
    run: trenailer_run,
    run_in: trenailer_run_in,
    view: trenailer_view,
    cell: trenailer_cell,
    replay: trenailer_replay,
    leading_zeros: trenailer_leading_zeros,
};

pub static PLAIN: Calls = Calls {
    operate: plain_operate,
    operate_in: plain_operate_in,
    push: plain_push,
    run: plain_run,
    run_in: plain_run_in,
    view: plain_view,
    cell: plain_cell,
    replay: plain_replay,
    leading_zeros: plain_leading_zeros,
};

pub static EMPTY: Calls = Calls {
    operate: empty_operate,
    operate_in: empty_operate_in,
    push: empty_push,
    run: empty_run,
    run_in: empty_run_in,
    view: empty_view,
    cell: empty_cell,
    replay: empty_replay,
    leading_zeros: empty_leading_zeros,
};

// SAFETY of what follows: as for the C interface, every pointer is lent for the call with
// its length, and buffers do not overlap.

unsafe extern "C" fn plain_operate(s: *mut u8, len: usize, depth: *mut usize, literal: u8) -> u8 {
    plain::operate::<SHIPPED>(from_raw_parts_mut(s, len), &mut *depth, literal)
}

unsafe extern "C" fn plain_operate_in(
    edition: u8,
    s: *mut u8,
    len: usize,
    depth: *mut usize,
    literal: u8,
) -> u8 {
    plain::operate_in(edition, from_raw_parts_mut(s, len), &mut *depth, literal)
}

unsafe extern "C" fn plain_push(
    s: *mut u8,
    len: usize,
    depth: *mut usize,
    number: *const u8,
    number_len: usize,
) -> u8 {
    let number = from_raw_parts(number, number_len);
    plain::push(from_raw_parts_mut(s, len), &mut *depth, number)
}

unsafe extern "C" fn plain_run(
    s: *mut u8,
    len: usize,
    depth: *mut usize,
    literals: *const u8,
    literals_len: usize,
    position: *mut usize,
) -> u8 {
    let literals = from_raw_parts(literals, literals_len);
    let stack = from_raw_parts_mut(s, len);
    plain::run::<SHIPPED>(stack, &mut *depth, literals, &mut *position)
}

unsafe extern "C" fn plain_run_in(
    edition: u8,
    s: *mut u8,
    len: usize,
    depth: *mut usize,
    literals: *const u8,
    literals_len: usize,
    position: *mut usize,
) -> u8 {
    let literals = from_raw_parts(literals, literals_len);
    let stack = from_raw_parts_mut(s, len);
    plain::run_in(edition, stack, &mut *depth, literals, &mut *position)
}

unsafe extern "C" fn plain_view(
    s: *const u8,
    len: usize,
    depth: usize,
    start: *mut usize,
) -> usize {
    match plain::view(from_raw_parts(s, len), depth) {
        Some(at) => {
            *start = at;
            5
        }
        None => 0,
    }
}

unsafe extern "C" fn plain_cell(
    report: u8,
    s: *const u8,
    len: usize,
    depth: usize,
    refused: *mut u8,
    value: *mut f64,
) -> u8 {
    match plain::cell(report, from_raw_parts(s, len), depth) {
        Cell::Refused(named) => {
            *refused = named;
            REFUSED
        }
        Cell::Blank => BLANK,
        Cell::Odd => ODD,
        Cell::Value(bits) => {
            *value = f64::from_bits(bits);
            VALUE
        }
    }
}

unsafe extern "C" fn plain_replay(
    s: *mut u8,
    len: usize,
    recording: *const u8,
    recording_len: usize,
    count: *mut usize,
    field: *mut u8,
    depth: *mut usize,
) -> u8 {
    let recording = from_raw_parts(recording, recording_len);
    let stack = from_raw_parts_mut(s, len);
    plain::replay(stack, recording, &mut *count, &mut *field, &mut *depth)
}

unsafe extern "C" fn plain_leading_zeros(t: u32) -> u8 {
    plain::leading_zeros(t)
}

unsafe extern "C" fn empty_operate(_: *mut u8, _: usize, _: *mut usize, _: u8) -> u8 {
    0
}

unsafe extern "C" fn empty_operate_in(_: u8, _: *mut u8, _: usize, _: *mut usize, _: u8) -> u8 {
    0
}

unsafe extern "C" fn empty_push(_: *mut u8, _: usize, _: *mut usize, _: *const u8, _: usize) -> u8 {
    0
}

unsafe extern "C" fn empty_run(
    _: *mut u8,
    _: usize,
    _: *mut usize,
    _: *const u8,
    _: usize,
    _: *mut usize,
) -> u8 {
    0
}

unsafe extern "C" fn empty_run_in(
    _: u8,
    _: *mut u8,
    _: usize,
    _: *mut usize,
    _: *const u8,
    _: usize,
    _: *mut usize,
) -> u8 {
    0
}

unsafe extern "C" fn empty_view(_: *const u8, _: usize, _: usize, _: *mut usize) -> usize {
    0
}

unsafe extern "C" fn empty_cell(
    _: u8,
    _: *const u8,
    _: usize,
    _: usize,
    _: *mut u8,
    _: *mut f64,
) -> u8 {
    0
}

unsafe extern "C" fn empty_replay(
    _: *mut u8,
    _: usize,
    _: *const u8,
    _: usize,
    _: *mut usize,
    _: *mut u8,
    _: *mut usize,
) -> u8 {
    0
}

unsafe extern "C" fn empty_leading_zeros(_: u32) -> u8 {
    0
}
