//! Random sheets through the built program `calc`, each held to the reference in its standard
//! output, byte for byte, and in whether standard error says that a line can't be read.

pub mod draw;

use crate::program::{run, shown};
use crate::rng::Rng;
use crate::sheet::{follow, Followed};
use std::io::Result;
use std::process::Output;

/// How one sheet came out.
pub enum Found {
    /// With whether it stops at a line that can't be read.
    Agreed {
        stopped: bool,
    },
    Differs(String),
}

/// The sheet of this number. It depends on the seed and the number alone, so that a sheet that
/// differs can be had again.
pub fn one(program: &str, seed: u64, number: u64) -> Result<Found> {
    let mut rng = Rng::new(seed ^ number.wrapping_mul(0xD134_2543_DE82_EF95));
    let sheet = draw::sheet(&mut rng, 2, &["mended", "mended", "shipped"]);
    let expected = follow(&sheet);
    let found = run(program, &sheet)?;
    Ok(if agree(&expected, &found) {
        Found::Agreed {
            stopped: expected.unreadable.is_some(),
        }
    } else {
        Found::Differs(difference(&sheet, &expected, &found))
    })
}

/// A program of ours has no status of its own, but it must not have been ended by a signal.
fn agree(expected: &Followed, found: &Output) -> bool {
    let mut lines = found.stderr.split(|&b| b == b'\n');
    let complains = lines.any(|line| line.starts_with(b"calc: "));
    found.stdout == expected.answers.as_bytes()
        && complains == expected.unreadable.is_some()
        && found.status.code().is_some()
}

fn difference(sheet: &[u8], expected: &Followed, found: &Output) -> String {
    format!(
        "{}\n\nreference\n{}\n\ncalc, {}\n{}\nstandard error\n{}\n",
        shown(sheet),
        expected.answers,
        found.status,
        shown(&found.stdout),
        shown(&found.stderr)
    )
}
