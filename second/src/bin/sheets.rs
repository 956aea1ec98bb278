//! `sheets PROGRAM N [SEED]`: N random sheets through the program `calc`, held to the reference.

use second::sheets::{self, Found};
use std::process::ExitCode;

fn main() -> ExitCode {
    let mut words = std::env::args().skip(1);
    let program = words.next();
    let count = words.next().and_then(|word| word.parse::<u64>().ok());
    let seed = words.next().map_or(Some(1), |word| word.parse().ok());
    let (Some(program), Some(count), Some(seed), None) = (program, count, seed, words.next())
    else {
        eprintln!("usage: sheets PROGRAM N [SEED]");
        return ExitCode::from(2);
    };
    let (mut agreed, mut differ, mut stopped) = (0, 0, 0);
    for number in 0..count {
        match sheets::one(&program, seed, number) {
            Ok(Found::Agreed { stopped: line }) => {
                agreed += 1;
                stopped += u64::from(line);
            }
            Ok(Found::Differs(words)) => {
                differ += 1;
                println!("sheet {number} of seed {seed} differs\n{words}");
            }
            Err(error) => {
                eprintln!("{program}: {error}");
                return ExitCode::from(2);
            }
        }
    }
    println!("{stopped} of them stop at a line that can't be read");
    println!("{agreed} sheets agreed, {differ} differ");
    if differ == 0 {
        ExitCode::SUCCESS
    } else {
        ExitCode::FAILURE
    }
}
