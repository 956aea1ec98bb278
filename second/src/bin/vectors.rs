//! `vectors ROOT` writes ROOT/crates/vectors/stdin and stdout, what the programs answer to the
//! sheets and recordings beside them, and the recordings of examples/ (see `files`);
//! `vectors ROOT --check` says whether they are what it would write.

use second::recording::{self, kept};
use second::{sheet, vectors};
use std::path::Path;
use std::process::ExitCode;

fn main() -> ExitCode {
    let words: Vec<String> = std::env::args().skip(1).collect();
    let (root, check) = match words.iter().map(String::as_str).collect::<Vec<_>>()[..] {
        [root] => (root, false),
        [root, "--check"] => (root, true),
        _ => {
            eprintln!("usage: vectors ROOT [--check]");
            return ExitCode::from(2);
        }
    };
    let root = Path::new(root);
    let v = vectors::all();
    let kept = files(root, &v).and_then(|files| {
        if check {
            Ok(are_current(root, &files))
        } else {
            write(root, &files).map(|()| true)
        }
    });
    match kept {
        Ok(true) => {
            let done = if check { "current" } else { "written" };
            println!("{} cases {done}", v.cases);
            ExitCode::SUCCESS
        }
        Ok(false) => ExitCode::FAILURE,
        Err(words) => {
            eprintln!("{words}");
            ExitCode::FAILURE
        }
    }
}

type File = (&'static str, Vec<u8>);

/// Every file that is written, in full. Sheets are read from where they stand.
fn files(root: &Path, v: &vectors::Vectors) -> Result<Vec<File>, String> {
    let read = |name: &str| std::fs::read(root.join(name)).map_err(|e| format!("{name}: {e}"));
    let recorded = |name: &str| {
        recording::record(&read(name)?).map_err(|line| format!("{name}: line {line} stops record"))
    };
    let calc = sheet::follow(&read("crates/calc/stdin")?).answers;
    let (deep, every_name) = (kept::deep(), kept::every_name());
    let count = recorded("examples/count.txt")?;
    let moved = kept::one_higher(&count);
    // By hand: the sheet has 18 steps, and its second subtraction is the 16th.
    assert_eq!(recording::replay(&count), "agree 18\n");
    assert_eq!(recording::replay(&moved), "differ 15 top\n");
    Ok(vec![
        ("crates/vectors/stdin", v.stdin.clone().into()),
        ("crates/vectors/stdout", v.stdout.clone().into()),
        ("crates/calc/stdout", calc.into()),
        ("crates/record/stdout", recorded("crates/record/stdin")?),
        ("crates/replay/stdout", recording::replay(&deep).into()),
        ("crates/replay/stdin", deep),
        ("crates/show/stdout", recording::show(&every_name).into()),
        ("crates/show/stdin", every_name),
        ("examples/count.rec", count),
        ("examples/moved.rec", moved),
    ])
}

fn is_current(root: &Path, (name, bytes): &File) -> bool {
    std::fs::read(root.join(name)).ok().as_ref() == Some(bytes)
}

/// Says of each that is not.
fn are_current(root: &Path, files: &[File]) -> bool {
    let mut all = true;
    for file in files.iter().filter(|file| !is_current(root, file)) {
        println!("{} is not current: run second/vectors", file.0);
        all = false;
    }
    all
}

/// One that is current stays: a program is built anew where a file of its crate is newer.
fn write(root: &Path, files: &[File]) -> Result<(), String> {
    for (name, bytes) in files.iter().filter(|file| !is_current(root, file)) {
        let path = root.join(name);
        let folder = path.parent().unwrap_or(root);
        std::fs::create_dir_all(folder)
            .and_then(|()| std::fs::write(&path, bytes))
            .map_err(|error| format!("{name}: {error}"))?;
    }
    Ok(())
}
