//! A quota, as a count of the eighties had it: the votes by one more than the seats, the whole part of that, and 1. Here 1,000 votes and
//! 6 seats. It prints the quota and its five bytes.
//!
//! From an installed tree, or from the repository after ./trenailer library:
//!
//!     rustc quota.rs -L PREFIX/lib -l static=trenailer
//!     rustc examples/quota.rs -L target/staticlib -l static=trenailer

use std::process::exit;

/// Of include/trenailer.h, which says what each call does. (In edition 2024 the block is `unsafe extern "C"`.)
mod trenailer {
    extern "C" {
        fn trenailer_operate(
            stack: *mut u8,
            stack_len: usize,
            depth: *mut usize,
            literal: u8,
        ) -> u8;
        fn trenailer_push(
            stack: *mut u8,
            stack_len: usize,
            depth: *mut usize,
            number: *const u8,
            number_len: usize,
        ) -> u8;
        fn trenailer_run(
            stack: *mut u8,
            stack_len: usize,
            depth: *mut usize,
            literals: *const u8,
            literals_len: usize,
            position: *mut usize,
        ) -> u8;
        fn trenailer_view(
            stack: *const u8,
            stack_len: usize,
            depth: usize,
            start: *mut usize,
        ) -> usize;
        fn trenailer_cell(
            report: u8,
            stack: *const u8,
            stack_len: usize,
            depth: usize,
            refused: *mut u8,
            value: *mut f64,
        ) -> u8;
    }

    pub const DONE: u8 = 0;
    pub const DIVIDE: u8 = 5;
    pub const ADD: u8 = 15;
    pub const INT: u8 = 39;

    pub enum Cell {
        Refused(u8),
        Blank,
        Odd,
        Value(f64),
    }

    // Slices and references are never null and a `&mut` has no other beside it, which is what the header asks for.

    pub fn operate(stack: &mut [u8], depth: &mut usize, literal: u8) -> u8 {
        unsafe { trenailer_operate(stack.as_mut_ptr(), stack.len(), depth, literal) }
    }

    pub fn push(stack: &mut [u8], depth: &mut usize, number: &[u8]) -> u8 {
        unsafe {
            trenailer_push(
                stack.as_mut_ptr(),
                stack.len(),
                depth,
                number.as_ptr(),
                number.len(),
            )
        }
    }

    /// The report, and how many literals were done.
    pub fn run(stack: &mut [u8], depth: &mut usize, literals: &[u8]) -> (u8, usize) {
        let mut position = 0;
        let report = unsafe {
            trenailer_run(
                stack.as_mut_ptr(),
                stack.len(),
                depth,
                literals.as_ptr(),
                literals.len(),
                &mut position,
            )
        };
        (report, position)
    }

    pub fn view(stack: &[u8], depth: usize) -> &[u8] {
        let mut start = 0;
        let length = unsafe { trenailer_view(stack.as_ptr(), stack.len(), depth, &mut start) };
        &stack[start..start + length]
    }

    pub fn cell(report: u8, stack: &[u8], depth: usize) -> Cell {
        let (mut refused, mut value) = (0, 0.0);
        match unsafe {
            trenailer_cell(
                report,
                stack.as_ptr(),
                stack.len(),
                depth,
                &mut refused,
                &mut value,
            )
        } {
            0 => Cell::Refused(refused),
            1 => Cell::Blank,
            2 => Cell::Odd,
            _ => Cell::Value(value),
        }
    }
}

use trenailer::{Cell, ADD, DIVIDE, DONE, INT};

fn stop(step: &str, report: u8) -> ! {
    eprintln!("{}: report {}", step, report);
    exit(1)
}

/// Pushes a whole number from 0 to 65,535, as a short number: its low byte is the third, its high byte the fourth.
fn push(stack: &mut [u8], depth: &mut usize, n: u16) {
    let [low, high] = n.to_le_bytes();
    match trenailer::push(stack, depth, &[0, 0, low, high, 0]) {
        DONE => (),
        report => stop("push", report),
    }
}

fn main() {
    let (mut stack, mut depth) = ([0; 20], 0);
    push(&mut stack, &mut depth, 1000); // votes
    push(&mut stack, &mut depth, 6); // seats
    push(&mut stack, &mut depth, 1);
    let divided = [ADD, DIVIDE, INT];
    match trenailer::run(&mut stack, &mut depth, &divided) {
        (DONE, _) => (),
        (report, done) => stop(&format!("literal {}", divided[done]), report),
    }
    push(&mut stack, &mut depth, 1);
    let report = trenailer::operate(&mut stack, &mut depth, ADD);

    match trenailer::cell(report, &stack, depth) {
        Cell::Refused(report) => stop("the quota", report),
        Cell::Blank => println!("blank"),
        Cell::Odd => println!("odd"),
        Cell::Value(value) => {
            print!("{}", value);
            for byte in trenailer::view(&stack, depth) {
                print!(" {:02X}", byte);
            }
            println!();
        }
    }
}
