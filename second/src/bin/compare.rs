//! `compare N [SEED]`: N random calls through the C interface, held to the reference.

use second::compare;
use std::process::ExitCode;

fn main() -> ExitCode {
    let mut words = std::env::args().skip(1);
    let count = words.next().and_then(|word| word.parse::<u64>().ok());
    let seed = words.next().map_or(Some(1), |word| word.parse().ok());
    let (Some(count), Some(seed), None) = (count, seed, words.next()) else {
        eprintln!("usage: compare N [SEED]");
        return ExitCode::from(2);
    };
    let mut tally = compare::Tally::default();
    for number in 0..count {
        if let Err(difference) = compare::one(seed, number, &mut tally) {
            println!("case {number} of seed {seed} differs\n{difference}");
            println!("{number} cases agreed, 1 differs");
            return ExitCode::FAILURE;
        }
    }
    println!("{tally}");
    println!("{count} cases agreed, 0 differ");
    ExitCode::SUCCESS
}
