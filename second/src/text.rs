//! The text of a case and of its answer, as crates/vectors/stdin and stdout hold them.

use crate::case::{After, Call, Case};
use crate::Cell;

pub fn hex(bytes: &[u8]) -> String {
    bytes.iter().map(|b| format!("{b:02X}")).collect()
}

/// With blanks between, as programs print a number for people.
pub fn spaced(bytes: &[u8]) -> String {
    let words: Vec<String> = bytes.iter().map(|b| format!("{b:02X}")).collect();
    words.join(" ")
}

/// The bytes of a case, as `LENGTH:HEX` or, where it is much shorter, as `LENGTH:HEX*`. Zeros at
/// the end are left out only where they are many: it reads better.
fn given(bytes: &[u8]) -> String {
    let tail = bytes.iter().rev().take_while(|&&b| b == 0).count();
    let written = if tail > 8 {
        bytes.len() - tail
    } else {
        bytes.len()
    };
    let period = period(bytes);
    if written > 64 && 2 * period < written {
        format!("{}:{}*", bytes.len(), hex(&bytes[..period]))
    } else {
        format!("{}:{}", bytes.len(), hex(&bytes[..written]))
    }
}

/// The least number of bytes that give all of them when they are repeated, the last time cut
/// short where need be. It is what is left without the longest part that is both their beginning
/// and their end, which is found from those of the beginnings.
fn period(bytes: &[u8]) -> usize {
    let mut both = vec![0; bytes.len() + 1];
    for i in 1..bytes.len() {
        let mut n = both[i];
        while n > 0 && bytes[i] != bytes[n] {
            n = both[n];
        }
        both[i + 1] = if bytes[i] == bytes[n] { n + 1 } else { 0 };
    }
    bytes.len() - both[bytes.len()]
}

/// `LENGTH:HEX` of an answer, with no zeros at the end.
pub fn counted(bytes: &[u8]) -> String {
    let written = bytes.iter().rposition(|&b| b != 0).map_or(0, |i| i + 1);
    format!("{}:{}", bytes.len(), hex(&bytes[..written]))
}

pub fn case_line(case: &Case) -> String {
    let (kind, bytes) = match &case.call {
        Call::Operate(literal) => ('o', vec![*literal]),
        Call::Push(number) => ('p', number.clone()),
        Call::Run(literals) => ('r', literals.clone()),
        Call::OperateIn(edition, literal) => ('O', vec![*edition, *literal]),
        Call::RunIn(edition, literals) => ('R', [&[*edition], literals.as_slice()].concat()),
        Call::Cell(report) => ('c', vec![*report]),
        Call::Replay(recording) => ('y', recording.clone()),
        Call::LeadingZeros(t) => ('z', t.to_be_bytes().to_vec()),
    };
    let stack = given(&case.stack);
    format!("{kind}{} {stack} {}", case.depth, given(&bytes))
}

pub fn answer_line(after: &After) -> String {
    let field = after
        .field
        .map_or(String::new(), |field| format!("{field} "));
    let position = after.position.unwrap_or(0);
    let view = after
        .view
        .map_or(&[][..], |start| &after.stack[start..start + 5]);
    let cell = match after.cell {
        Cell::Refused(report) => format!("R{report}"),
        Cell::Blank => "B0".to_string(),
        Cell::Odd => "O0".to_string(),
        Cell::Value(bits) => format!("V{bits}"),
    };
    let (stack, view) = (counted(&after.stack), counted(view));
    format!(
        "{field}{} {position} {} {stack} {view} {cell}",
        after.report, after.depth
    )
}
