//! Comparison with the ROM's own code, in either edition, on operands that are well formed in the
//! shipped one.

mod listing_addition;
mod listing_division;
mod listing_truncation;
pub mod machine;
mod operands;
mod z80;

use crate::reference::literals::{
    self, ADD, DIVIDE, INT, MULTIPLY, NEGATE, RE_STACK, SUBTRACT, TRUNCATE,
};
use crate::reference::number::MINUS_65536;
use crate::reference::Edition;
use crate::rng::Rng;
use crate::text::hex;
use crate::Bytes;
use machine::{Left, Machine};

pub const COMPARED: [(u8, &str); 8] = [
    (ADD, "add"),
    (SUBTRACT, "subtract"),
    (MULTIPLY, "multiply"),
    (DIVIDE, "divide"),
    (NEGATE, "negate"),
    (INT, "int"),
    (TRUNCATE, "truncate"),
    (RE_STACK, "re-stack"),
];

/// How one case came out.
pub enum Found {
    /// With a fifth byte it is a short sum whose b5, the first number's own, is not zero.
    Agreed {
        fifth_byte: bool,
    },
    /// The ROM leaves what is known that it leaves, and A3 says otherwise.
    Known(Known),
    Differs(String),
}

/// Where the image's own code, which is another mending, differs from A3.
#[derive(Clone, Copy, Debug, PartialEq, Eq)]
pub enum Known {
    /// A3 refuses an odd operand. The ROM works with it as the shipped one does.
    Odd,
    /// A short sum of -65,536 has the first number's b5 there, where A3 writes five bytes.
    FifthByte,
}

/// What a literal comes to by the papers, and what the ROM is to leave where that is not the same.
struct Expected {
    papers: Left,
    rom: Option<(Known, Left)>,
}

fn expected(edition: Edition, literal: u8, operands: &[Bytes]) -> Expected {
    let papers = match literals::leaves(edition, literal, operands) {
        Some(left) => Left::Number(left[0]),
        None => Left::TooBig,
    };
    if edition == Edition::Shipped {
        return Expected { papers, rom: None };
    }
    // Two numbers whose b1 is zero and whose sum is -65,536 are added by the short route.
    let sum = matches!(literal, ADD | SUBTRACT) && operands.iter().all(|b| b[0] == 0);
    let left = match papers {
        Left::Number(MINUS_65536) if sum => {
            let [b1, b2, b3, b4, _] = MINUS_65536;
            Left::Number([b1, b2, b3, b4, operands[0][4]])
        }
        other => other,
    };
    if operands
        .iter()
        .any(|&b| literals::malformed_operand(edition, b))
    {
        Expected {
            papers: Left::Malformed,
            rom: Some((Known::Odd, left)),
        }
    } else {
        let differs = left != papers;
        Expected {
            papers,
            rom: differs.then_some((Known::FifthByte, left)),
        }
    }
}

pub fn one(rng: &mut Rng, machine: &mut Machine, edition: Edition, literal: u8) -> Found {
    let operands = operands::draw(rng, literal);
    let expected = expected(edition, literal, &operands);
    let found = match machine.operate(literal, &operands) {
        Ok(found) => found,
        Err(words) => return Found::Differs(format!("{words}: {operands:02X?}")),
    };
    match expected.rom {
        None if found == expected.papers => Found::Agreed {
            fifth_byte: has_fifth_byte(literal, found),
        },
        Some((known, left)) if found == left => Found::Known(known),
        _ => {
            let operands: Vec<String> = operands.iter().map(|b| hex(b)).collect();
            Found::Differs(format!(
                "{}: the ROM leaves {}, the papers {}",
                operands.join(" "),
                words(found),
                words(expected.papers)
            ))
        }
    }
}

/// Whether it is a short sum with a fifth byte. The full route leaves b1 zero in a zero alone,
/// which is five zero bytes.
fn has_fifth_byte(literal: u8, left: Left) -> bool {
    matches!(literal, ADD | SUBTRACT) && matches!(left, Left::Number([0, _, _, _, b5]) if b5 != 0)
}

fn words(left: Left) -> String {
    match left {
        Left::Number(number) => hex(&number),
        Left::TooBig => "number too big".to_string(),
        Left::Malformed => "report 3".to_string(),
    }
}
