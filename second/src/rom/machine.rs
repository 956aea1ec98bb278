//! The ROM's calculator at work: numbers on its stack, one literal, what it leaves.

use super::listing_addition::ADDITION;
use super::listing_division::DIVISION;
use super::listing_truncation::TRUNCATION;
use super::z80::{Register, Z80};
use crate::reference::Edition;
use crate::Bytes;

/// System variables of the Spectrum.
const STKBOT: u16 = 0x5C63;
const STKEND: u16 = 0x5C65;
const MEM: u16 = 0x5C68;
const MEMBOT: u16 = 0x5C92;
/// IY points here all the time.
const ERR_NR: u16 = 0x5C3A;

/// The error restart, and the byte after it for "6 Number too big".
const ERROR: u16 = 0x0008;
const NUMBER_TOO_BIG: u8 = 5;

/// In RAM: a program, the calculator's stack, and the top of the machine stack.
const PROGRAM: u16 = 0x8000;
const STACK: u16 = 0x9000;
const MACHINE_STACK: u16 = 0xFF00;
const RST_28: u8 = 0xEF;
const END_CALC: u8 = 0x38;
const AFTER: u16 = PROGRAM + 3;

/// More instructions than any literal here takes.
const PATIENCE: u32 = 100_000;

/// What the ROM leaves, or that it says "Number too big". It never says that an operand is
/// malformed: the papers do.
#[derive(Clone, Copy, Debug, PartialEq, Eq)]
pub enum Left {
    Number(Bytes),
    TooBig,
    Malformed,
}

pub struct Machine(Z80);

/// The second byte of the jump to a 34th round, and what listing 001's note has there: the round
/// starts with a doubling.
const JUMP_TO_34TH: usize = 12_800;
const DOUBLING_FIRST: u8 = 218;

/// The image as an edition. The shipped one has the listings' addition and truncation in place of
/// the image's own, which are mended; the mended one has listing 001's remedy in its division,
/// which the image has as it was shipped. It is an error where the image is not the one that the
/// rest of this was written for.
pub fn of_edition(edition: Edition, mut image: Vec<u8>) -> Result<Vec<u8>, String> {
    if image.len() != 0x4000 {
        return Err(format!("{} bytes and not 16384", image.len()));
    }
    for &(at, bytes) in DIVISION {
        let at = usize::from(at);
        if image[at..at + bytes.len()] != *bytes {
            return Err(format!("division is not listing 001's at {at:04X}"));
        }
    }
    match edition {
        Edition::Shipped => {
            for &(at, bytes) in ADDITION.iter().chain(TRUNCATION) {
                let at = usize::from(at);
                image[at..at + bytes.len()].copy_from_slice(bytes);
            }
        }
        Edition::Mended => image[JUMP_TO_34TH] = DOUBLING_FIRST,
    }
    Ok(image)
}

impl Machine {
    pub fn new(image: &[u8]) -> Machine {
        Machine(Z80::new(image))
    }

    /// One literal that leaves one number, by the calculator itself.
    pub fn operate(&mut self, literal: u8, operands: &[Bytes]) -> Result<Left, String> {
        let z80 = &mut self.0;
        let mut end = STACK;
        for number in operands {
            let at = usize::from(end);
            z80.memory()[at..at + 5].copy_from_slice(number);
            end += 5;
        }
        z80.set_word(STKBOT, STACK);
        z80.set_word(STKEND, end);
        z80.set_word(MEM, MEMBOT);
        let program = usize::from(PROGRAM);
        z80.memory()[program..program + 3].copy_from_slice(&[RST_28, literal, END_CALC]);
        z80.set(Register::Pc, PROGRAM);
        z80.set(Register::Sp, MACHINE_STACK);
        z80.set(Register::Iy, ERR_NR);
        for _ in 0..PATIENCE {
            z80.step();
            match z80.get(Register::Pc) {
                AFTER => return self.left(),
                ERROR => return self.refused(),
                _ => {}
            }
        }
        Err("the calculator did not come to an end".to_string())
    }

    fn left(&mut self) -> Result<Left, String> {
        let end = self.0.word(STKEND);
        if end != STACK + 5 {
            return Err(format!("STKEND is {end:04X}"));
        }
        let at = usize::from(STACK);
        let number = self.0.memory()[at..at + 5].try_into();
        Ok(Left::Number(number.expect("five bytes")))
    }

    fn refused(&mut self) -> Result<Left, String> {
        let sp = self.0.get(Register::Sp);
        let after = self.0.word(sp);
        match self.0.memory()[usize::from(after)] {
            NUMBER_TOO_BIG => Ok(Left::TooBig),
            other => Err(format!("the ROM's error {other}")),
        }
    }
}
