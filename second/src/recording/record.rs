//! What `record` writes for a sheet: the recording that this machine makes of it.

use crate::reference::replay::{Record, LONGEST_RECORDING};
use crate::reference::Edition;
use crate::sheet::{read, Line, STACK_LEN};
use crate::Step;

/// `Err` is the number of the line at which it stops, and nothing is written.
pub fn record(sheet: &[u8]) -> Result<Vec<u8>, usize> {
    let mut stack = vec![0; STACK_LEN];
    let mut depth = 0;
    let mut recording = Vec::new();
    let (lines, unreadable) = read(sheet);
    for (number, line) in lines {
        let step = match line {
            Line::Step(step) => step,
            // A recording is of the shipped edition: to name it is nothing to record.
            Line::Edition(Edition::Shipped) => continue,
            Line::Edition(Edition::Mended) => return Err(number),
        };
        // A recording has 0 for a push, and 4,000 records at most.
        if step == Step::Literal(0) || recording.len() == LONGEST_RECORDING {
            return Err(number);
        }
        let made = Record::of(step, &mut stack, depth);
        depth = made.depth;
        recording.extend(made.written());
    }
    match unreadable {
        None => Ok(recording),
        Some(line) => Err(line),
    }
}
