//! A built program on its input, and bytes made readable where its answer differs.

use std::io::{ErrorKind, Result, Write};
use std::process::{Command, Output, Stdio};
use std::thread;

/// The input is given by a thread of its own: neither side has to wait for the other to read. A
/// program that stops may leave the rest unread.
pub fn run(program: &str, input: &[u8]) -> Result<Output> {
    let mut child = Command::new(program)
        .stdin(Stdio::piped())
        .stdout(Stdio::piped())
        .stderr(Stdio::piped())
        .spawn()?;
    let lent = child.stdin.take();
    thread::scope(|scope| {
        let given = scope.spawn(move || match lent.map(|mut pipe| pipe.write_all(input)) {
            Some(Err(error)) if error.kind() != ErrorKind::BrokenPipe => Err(error),
            _ => Ok(()),
        });
        let output = child.wait_with_output();
        given.join().expect("writing does not panic")?;
        output
    })
}

/// Bytes that can be read on a terminal: those that are no plain ones by their numbers, and many
/// equal ones as one and their count.
pub fn shown(bytes: &[u8]) -> String {
    let mut text = String::new();
    for run in bytes.chunk_by(|a, b| a == b) {
        let byte = run[..1].escape_ascii().to_string();
        if run.len() > 40 {
            text += &format!("{byte}({} times)", run.len());
        } else {
            text += &byte.repeat(run.len());
        }
        if run[0] == b'\n' {
            text.push('\n');
        }
    }
    text
}
