//! What `replay` prints: one line.

use crate::reference::{self, DONE};
use crate::sheet::STACK_LEN;
use crate::Field;

pub fn replay(recording: &[u8]) -> String {
    let answer = reference::replay(&mut vec![0; STACK_LEN], recording);
    match (answer.report, answer.field) {
        (DONE, None) => format!("agree {}\n", answer.count),
        (DONE, Some(field)) => format!("differ {} {}\n", answer.count, name(field)),
        (number, _) => format!("refused {number}\n"),
    }
}

fn name(field: Field) -> &'static str {
    match field {
        Field::Report => "report",
        Field::Depth => "depth",
        Field::Top => "top",
    }
}
