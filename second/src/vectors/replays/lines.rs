//! The format: a replay's depth is passed over, and a recording may have 65,000 bytes.

use super::{agreeing, pushes_first};
use crate::case::{Call, Case};
use crate::text::{answer_line, hex};
use crate::vectors::Vectors;

const WRONG: [&str; 8] = [
    "y0",
    "y0 5:",
    "y 5: 0:",
    "Y0 5: 0:",
    "y0 5: 15:*",
    "y0 17001: 0:",
    "y0 5: 65001:",
    "y0 5: 65001:00*",
];

pub fn cases(v: &mut Vectors) {
    v.reason("ways to write one replay; its depth does not matter");
    let stack = vec![0x82; 12];
    let recording = agreeing(&stack, &pushes_first());
    let digits = hex(&recording);
    let length = recording.len();
    answered(v, "y0 5: 0:", vec![0; 5], vec![]);
    answered(v, "y1 0: 0:", vec![], vec![]);
    for depth in ["0", "2", "3", "18446744073709551615"] {
        let line = format!("y{depth} 12:82* {length}:{digits}");
        answered(v, &line, stack.clone(), recording.clone());
    }
    let line = format!("y0 12:82* {length}:{}*", digits.to_lowercase());
    answered(v, &line, stack.clone(), recording.clone());
    answered(
        v,
        "y0 17000:82 0:",
        [vec![0x82], vec![0; 16_999]].concat(),
        vec![],
    );
    answered(v, "y0 12:82* 65000:", stack, vec![0; 65_000]);
    v.reason("lines that are no replay");
    for line in WRONG {
        v.line(line, "?");
    }
}

fn answered(v: &mut Vectors, line: &str, stack: Vec<u8>, recording: Vec<u8>) {
    let case = Case {
        call: Call::Replay(recording),
        depth: 0,
        stack,
    };
    v.line(line, &answer_line(&case.answer()));
}
