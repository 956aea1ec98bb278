//! Recordings drawn at random: steps with refusals among them, recorded as they came out, and then
//! something moved.

use crate::draw;
use crate::reference::literals::ALL;
use crate::reference::replay::{Record, RECORD};
use crate::rng::Rng;
use crate::Step;

/// Somewhat more is pushed than is taken away, and what is pushed goes with what was pushed last.
pub fn steps(rng: &mut Rng, count: usize) -> Vec<Step> {
    let mut last = draw::any(rng);
    let mut steps = Vec::with_capacity(count);
    for _ in 0..count {
        steps.push(match rng.below(40) {
            0..=17 => {
                last = match rng.below(3) {
                    0 => draw::any(rng),
                    1 => draw::beside(rng, last),
                    _ => draw::factor(rng, last),
                };
                Step::Push(last)
            }
            18 => Step::Literal(rng.byte().max(1)),
            _ => Step::Literal(rng.pick(&ALL)),
        });
    }
    steps
}

/// The recording that the reference makes of these steps on this stack, which is left as they
/// leave it.
pub fn recorded(stack: &mut [u8], steps: &[Step]) -> Vec<u8> {
    let mut depth = 0;
    let mut recording = Vec::with_capacity(RECORD * steps.len());
    for &step in steps {
        let made = Record::of(step, stack, depth);
        depth = made.depth;
        recording.extend(made.written());
    }
    recording
}

/// A third of the recordings stay as they are.
pub fn moved(rng: &mut Rng, recording: &mut Vec<u8>) {
    match rng.below(18) {
        0..=5 => {}
        6..=10 => field(rng, recording),
        11..=12 => {
            field(rng, recording);
            field(rng, recording);
        }
        13 => reserved(rng, recording),
        14 => {
            field(rng, recording);
            reserved(rng, recording);
        }
        15 => part(rng, recording),
        16 => {
            field(rng, recording);
            part(rng, recording);
        }
        _ => order(rng, recording),
    }
}

/// A record of a recording, if it has one. The last and the first are as likely as the others are
/// together.
fn pick<'a>(rng: &mut Rng, recording: &'a mut [u8]) -> Option<&'a mut [u8; RECORD]> {
    let records = recording.as_chunks_mut().0;
    let last = records.len().checked_sub(1)?;
    let number = match rng.below(4) {
        0 => 0,
        1 => last,
        _ => rng.below(records.len() as u64) as usize,
    };
    records.get_mut(number)
}

/// The report, the depth or the top of a record; of a push the last is what is pushed. Some moves
/// come to nothing, as that of equal bytes swapped.
fn field(rng: &mut Rng, recording: &mut [u8]) {
    let Some(record) = pick(rng, recording) else {
        return;
    };
    match rng.below(10) {
        0 | 1 => record[1] = rng.below(8) as u8,
        2 => record[1] = rng.byte(),
        3 => record[2] = record[2].wrapping_add(rng.pick(&[1, 0xFF])),
        4 => record[3] = record[3].wrapping_add(rng.pick(&[1, 0xFF])),
        5 => record.swap(2, 3),
        6 => record[2 + rng.below(2) as usize] = rng.byte(),
        7 => record[4..9].fill(0),
        8 => record[4 + rng.below(5) as usize] ^= 1 << rng.below(8),
        _ => record[4 + rng.below(5) as usize] = rng.byte(),
    }
}

/// One of the bytes that have to be zero, or two, which may add up to zero.
fn reserved(rng: &mut Rng, recording: &mut [u8]) {
    let Some(record) = pick(rng, recording) else {
        return;
    };
    for _ in 0..1 + rng.below(2) {
        let bit = if rng.one_in(2) { 7 } else { rng.below(8) };
        record[9 + rng.below(7) as usize] ^= 1 << bit;
    }
}

/// Some bytes too few or too many. What is too many may be a whole record of zeros.
fn part(rng: &mut Rng, recording: &mut Vec<u8>) {
    let bytes = 1 + rng.below(16) as usize;
    if rng.one_in(2) {
        recording.truncate(recording.len().saturating_sub(bytes));
    } else {
        recording.resize(recording.len() + bytes, 0);
    }
}

/// A record left out, or there twice, or of another literal.
fn order(rng: &mut Rng, recording: &mut Vec<u8>) {
    let count = recording.len() / RECORD;
    if count == 0 {
        return;
    }
    let start = RECORD * rng.below(count as u64) as usize;
    match rng.below(3) {
        0 => drop(recording.drain(start..start + RECORD)),
        1 => {
            let twice = recording[start..start + RECORD].to_vec();
            recording.splice(start..start, twice);
        }
        _ => recording[start] = draw::literal(rng),
    }
}
