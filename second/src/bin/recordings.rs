//! `recordings FOLDER N [SEED]`: N random sheets through FOLDER's program `record`, and recordings
//! through its `replay` and `show`, held to the reference.

use second::recordings::{self, Found};
use std::collections::BTreeMap;
use std::process::ExitCode;

fn main() -> ExitCode {
    let mut words = std::env::args().skip(1);
    let folder = words.next();
    let count = words.next().and_then(|word| word.parse::<u64>().ok());
    let seed = words.next().map_or(Some(1), |word| word.parse().ok());
    let (Some(folder), Some(count), Some(seed), None) = (folder, count, seed, words.next()) else {
        eprintln!("usage: recordings FOLDER N [SEED]");
        return ExitCode::from(2);
    };
    let (mut agreed, mut differ, mut stopped) = (0, 0, 0);
    let mut lines: BTreeMap<String, u64> = BTreeMap::new();
    for number in 0..count {
        match recordings::one(&folder, seed, number) {
            Ok(Found::Agreed { stopped: at, line }) => {
                agreed += 1;
                stopped += u64::from(at);
                *lines.entry(without_number(&line)).or_default() += 1;
            }
            Ok(Found::Differs(words)) => {
                differ += 1;
                println!("recording {number} of seed {seed} differs\n{words}");
            }
            Err(error) => {
                eprintln!("{folder}: {error}");
                return ExitCode::from(2);
            }
        }
    }
    let lines: Vec<String> = lines
        .iter()
        .map(|(line, n)| format!("{line} {n}"))
        .collect();
    println!(
        "record stops at a line of {stopped} sheets; replay: {}",
        lines.join(", ")
    );
    println!("{agreed} recordings agreed, {differ} differ");
    if differ == 0 {
        ExitCode::SUCCESS
    } else {
        ExitCode::FAILURE
    }
}

/// `agree`, `differ depth` and so on, whichever record it is.
fn without_number(line: &str) -> String {
    let words = line
        .split_whitespace()
        .filter(|word| word.parse::<u64>().is_err());
    words.collect::<Vec<_>>().join(" ")
}
