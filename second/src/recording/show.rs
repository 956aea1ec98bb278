//! What `show` prints: a line a record, up to the first that differs, and `replay`'s line.

use super::replay;
use crate::reference::literals::{ALL, NAMES};
use crate::reference::replay::{records, Record};
use crate::sheet::{answer, STACK_LEN};
use crate::text::spaced;
use crate::{Step, ZERO};

pub fn show(recording: &[u8]) -> String {
    let mut stack = vec![0; STACK_LEN];
    let mut depth = 0;
    let mut text = String::new();
    // What is no recording has no records to show.
    let records = records(recording).unwrap_or_default();
    for (number, record) in records.iter().enumerate() {
        text += &format!("{number} {}\n", line(record));
        let made = Record::of(record.step, &mut stack, depth);
        depth = made.depth;
        if record.difference(&made).is_some() {
            let answer = answer(made.report, &stack, depth);
            text += &format!("  this machine: {answer}\n");
            break;
        }
    }
    text + &replay(recording)
}

/// A record's own words.
fn line(record: &Record) -> String {
    let (name, top) = match (record.step, record.top) {
        (Step::Push(number), _) => ("push".to_string(), spaced(&number)),
        (Step::Literal(literal), Some(ZERO)) if record.depth == 0 => {
            (name(literal), "-".to_string())
        }
        (Step::Literal(literal), top) => (name(literal), spaced(&top.unwrap_or(ZERO))),
    };
    format!("{name} {} {} {top}", record.report, record.depth)
}

fn name(literal: u8) -> String {
    match ALL.iter().position(|&known| known == literal) {
        Some(i) => NAMES[i].to_string(),
        None => format!("literal {literal}"),
    }
}
