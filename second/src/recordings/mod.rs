//! Random sheets through the built program `record`, and recordings through `replay` and `show`,
//! each held to the reference byte for byte.

mod draw;

use crate::program::{run, shown};
use crate::recording::{record, replay, show};
use crate::rng::Rng;
use std::io::Result;
use std::process::Output;

/// How one sheet and one recording came out.
pub enum Found {
    /// With whether `record` stops at a line, and what `replay` says.
    Agreed {
        stopped: bool,
        line: String,
    },
    Differs(String),
}

/// The sheet and the recording of this number. They depend on the seed and the number alone, so
/// that one that differs can be had again.
pub fn one(folder: &str, seed: u64, number: u64) -> Result<Found> {
    let mut rng = Rng::new(seed ^ number.wrapping_mul(0xD134_2543_DE82_EF95));
    let sheet = draw::sheet(&mut rng);
    let made = record(&sheet);
    let found = run(&format!("{folder}/record"), &sheet)?;
    if !(is_recorded(&made, &found) && ended(&found)) {
        let expected = match &made {
            Ok(recording) => told(recording),
            Err(line) => format!("nothing, and a word about line {line}"),
        };
        let sheet = shown(&sheet);
        return Ok(differs(
            "record",
            &sheet,
            &expected,
            &told(&found.stdout),
            &found,
        ));
    }

    let stopped = made.is_err();
    let recording = draw::recording(&mut rng, made.ok());
    let line = replay(&recording);
    for (program, expected) in [("replay", &line), ("show", &show(&recording))] {
        let found = run(&format!("{folder}/{program}"), &recording)?;
        let agrees = found.stdout == expected.as_bytes() && found.stderr.is_empty();
        if !(agrees && ended(&found)) {
            let given = told(&recording);
            return Ok(differs(
                program,
                &given,
                expected,
                &shown(&found.stdout),
                &found,
            ));
        }
    }
    Ok(Found::Agreed { stopped, line })
}

/// The recording and nothing on standard error; or nothing, and one line there that names the line
/// of the sheet.
fn is_recorded(made: &std::result::Result<Vec<u8>, usize>, found: &Output) -> bool {
    match made {
        Ok(recording) => found.stdout == *recording && found.stderr.is_empty(),
        Err(line) => {
            let begins = format!("record: line {line}: ");
            let said = found.stderr.strip_suffix(b"\n");
            found.stdout.is_empty()
                && said.is_some_and(|said| said.starts_with(begins.as_bytes()))
                && said.is_some_and(|said| !said.contains(&b'\n'))
        }
    }
}

/// A program of ours has no status of its own, but it must not have been ended by a signal.
fn ended(found: &Output) -> bool {
    found.status.code().is_some()
}

/// A record a line.
fn told(recording: &[u8]) -> String {
    let lines = recording
        .chunks(16)
        .map(|record| crate::text::hex(record) + "\n");
    lines.collect()
}

fn differs(program: &str, given: &str, expected: &str, answered: &str, found: &Output) -> Found {
    Found::Differs(format!(
        "{program} of\n{given}\n\nreference\n{expected}\n\n{program}, {}\n{answered}\nstandard error\n{}\n",
        found.status,
        shown(&found.stderr)
    ))
}
