//! `rom N IMAGE [SEED]`: N random operations of the ROM's calculator in each edition, held to the
//! reference.

use second::reference::edition::BOTH;
use second::reference::Edition;
use second::rng::Rng;
use second::rom::machine::{of_edition, Machine};
use second::rom::{one, Found, Known, COMPARED};
use std::ops::AddAssign;
use std::process::ExitCode;

/// So many differences are printed for each literal.
const PRINTED: u64 = 5;

fn main() -> ExitCode {
    let words: Vec<String> = std::env::args().skip(1).collect();
    let parsed = match words.iter().map(String::as_str).collect::<Vec<_>>()[..] {
        [count, image] => count.parse().ok().map(|count| (count, image, 1)),
        [count, image, seed] => match (count.parse(), seed.parse()) {
            (Ok(count), Ok(seed)) => Some((count, image, seed)),
            _ => None,
        },
        _ => None,
    };
    let Some((count, image, seed)) = parsed else {
        eprintln!("usage: rom N IMAGE [SEED]");
        return ExitCode::from(2);
    };
    let image = std::fs::read(image).map_err(|error| error.to_string());
    let mut differ = 0;
    for edition in BOTH {
        match image.clone().and_then(|image| of_edition(edition, image)) {
            Ok(image) => differ += compare(count, seed, edition, &mut Machine::new(&image)),
            Err(words) => {
                eprintln!("the ROM image: {words}");
                return ExitCode::from(2);
            }
        }
    }
    if differ == 0 {
        ExitCode::SUCCESS
    } else {
        ExitCode::FAILURE
    }
}

/// How many cases of an edition differ.
fn compare(count: u64, seed: u64, edition: Edition, machine: &mut Machine) -> u64 {
    println!("the {} edition", edition.name());
    let mut rng = Rng::new(seed);
    let mut all = Counts::default();
    let literals = COMPARED.len() as u64;
    for (i, (literal, name)) in COMPARED.into_iter().enumerate() {
        let share = count / literals + u64::from((i as u64) < count % literals);
        let mut counts = Counts::default();
        for _ in 0..share {
            match one(&mut rng, machine, edition, literal) {
                Found::Agreed { fifth_byte } => {
                    counts.agreed += 1;
                    counts.fifth += u64::from(fifth_byte);
                }
                Found::Known(Known::Odd) => counts.odd += 1,
                Found::Known(Known::FifthByte) => counts.minus_65536 += 1,
                Found::Differs(words) => {
                    counts.differ += 1;
                    if counts.differ <= PRINTED {
                        println!("{name} differs: {words}");
                    }
                }
            }
        }
        println!("{name}: {}", counts.words("agreed"));
        all += counts;
    }
    println!("{}", all.words("cases agreed"));
    all.differ
}

#[derive(Clone, Copy, Default)]
struct Counts {
    agreed: u64,
    /// Of those that agreed: short sums with a fifth byte, which other literals have none of.
    fifth: u64,
    /// Known differences of the mended edition.
    odd: u64,
    minus_65536: u64,
    differ: u64,
}

impl AddAssign for Counts {
    fn add_assign(&mut self, other: Counts) {
        self.agreed += other.agreed;
        self.fifth += other.fifth;
        self.odd += other.odd;
        self.minus_65536 += other.minus_65536;
        self.differ += other.differ;
    }
}

impl Counts {
    fn words(&self, agreed: &str) -> String {
        let mut words = format!("{} {agreed}", self.agreed);
        if self.fifth > 0 {
            words += &format!(" ({} of them short sums whose b5 is not zero)", self.fifth);
        }
        let (odd, sums) = (self.odd, self.minus_65536);
        let of_sums = match sums {
            0 => String::new(),
            _ => format!(", {sums} sums of -65536 with a b5"),
        };
        if odd + sums > 0 {
            let known = odd + sums;
            words += &format!(", {known} otherwise, as known ({odd} odd operands{of_sums})");
        }
        words + &format!(", {} differ", self.differ)
    }
}
