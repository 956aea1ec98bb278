//! Sheets and recordings drawn at random for the programs.

use crate::recording::draw::{moved, recorded, steps};
use crate::reference::literals::{ALL, NAMES};
use crate::rng::Rng;
use crate::sheet::STACK_LEN;
use crate::sheets::draw as sheets;
use crate::text::spaced;
use crate::Step;

/// What a sheet may name: the other is a line that `record` can't read, and so a slip.
const EDITIONS: [&str; 1] = ["shipped"];

/// One in five has a slip, one in eight a literal 0 between other lines, and a few are about as
/// long as a recording may be.
pub fn sheet(rng: &mut Rng) -> Vec<u8> {
    if rng.one_in(200) {
        return long(rng);
    }
    let mut sheet = sheets::sheet(rng, 5, &EDITIONS);
    if rng.one_in(8) {
        sheet.extend(b"\n");
        sheet.extend(
            rng.pick(&["literal 0", "\tliteral  0 # push", "literal 000"])
                .bytes(),
        );
        sheet.extend(b"\n");
        sheet.extend(sheets::sheet(rng, 5, &EDITIONS));
    }
    sheet
}

/// Some hundred steps, or 4,000 and a few less or more; in some the last line can't be read.
fn long(rng: &mut Rng) -> Vec<u8> {
    let count = match rng.below(3) {
        0 => 300 + rng.below(700),
        _ => 3_998 + rng.below(5),
    };
    let mut sheet = Vec::new();
    for step in steps(rng, count as usize) {
        sheet.extend(line(rng, step).bytes());
        sheet.extend(rng.pick(&["\n", "\n", "\r\n", " # so\n\n"]).bytes());
    }
    if rng.one_in(4) {
        sheet.extend(
            rng.pick(&[
                "push",
                "literal 0",
                "# the end",
                "delete",
                "edition shipped",
                "edition mended",
            ])
            .bytes(),
        );
    }
    sheet
}

fn line(rng: &mut Rng, step: Step) -> String {
    match step {
        Step::Push(number) => spaced(&number),
        Step::Literal(literal) => match ALL.iter().position(|&known| known == literal) {
            Some(i) if !rng.one_in(4) => NAMES[i].to_string(),
            _ => format!("literal {literal}"),
        },
    }
}

/// What `record` made of a sheet, or where it made nothing some steps as the reference records
/// them; as it is or with something moved.
pub fn recording(rng: &mut Rng, made: Option<Vec<u8>>) -> Vec<u8> {
    let mut recording = made.unwrap_or_else(|| {
        let count = rng.below(60) as usize;
        let steps = steps(rng, count);
        recorded(&mut [0; STACK_LEN], &steps)
    });
    moved(rng, &mut recording);
    recording
}
