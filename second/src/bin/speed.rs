//! `speed count [ROW..]` runs under callgrind; `speed report FOLDER [ROW..]` reads what callgrind
//! wrote there, measures the time and prints both. A ROW is a part of a row's name; where there
//! are none, every row is measured.

use second::speed::work::Work;
use second::speed::{self, callgrind, report, rows, Cost, SIDES};
use std::collections::HashMap;
use std::path::Path;
use std::process::ExitCode;

fn main() -> ExitCode {
    let words: Vec<String> = std::env::args().skip(1).collect();
    match words.iter().map(String::as_str).collect::<Vec<_>>()[..] {
        ["count", ref parts @ ..] => {
            let rows = named(parts);
            speed::count(&rows);
            if rows.is_empty() {
                eprintln!("no row has such a name: {}", parts.join(", "));
                return ExitCode::from(2);
            }
            ExitCode::SUCCESS
        }
        ["report", folder, ref parts @ ..] => {
            match callgrind::read(Path::new(folder)).map(|counts| measured(named(parts), counts)) {
                Ok(Ok(rows)) if report::print(&rows) => ExitCode::SUCCESS,
                Ok(Ok(_)) => ExitCode::FAILURE,
                Ok(Err(name)) => {
                    eprintln!("callgrind counted nothing for {name}");
                    ExitCode::from(2)
                }
                Err(error) => {
                    eprintln!("{folder}: {error}");
                    ExitCode::from(2)
                }
            }
        }
        _ => {
            eprintln!("usage: speed count [ROW..] | speed report FOLDER [ROW..]");
            ExitCode::from(2)
        }
    }
}

/// The rows whose name contains one of these, or all.
fn named(parts: &[&str]) -> Vec<Work> {
    let mut all = rows::all();
    all.retain(|row| parts.is_empty() || parts.iter().any(|part| row.name.contains(part)));
    all
}

/// Every row with its instructions and its time, or the name of one that was not counted.
fn measured(works: Vec<Work>, counts: HashMap<String, f64>) -> Result<Vec<report::Row>, String> {
    let mut rows = Vec::new();
    for work in works {
        let sides = SIDES.map(|(side, _)| counts.get(&speed::dump_name(&work, side)).copied());
        let [Some(ours), Some(plain), Some(empty)] = sides else {
            return Err(work.name);
        };
        rows.push(report::Row {
            count: Cost::net(&work, [ours, plain, empty]),
            time: speed::time(&work),
            promised: work.promised,
            name: work.name,
        });
    }
    Ok(rows)
}
