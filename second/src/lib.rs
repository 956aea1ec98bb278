//! The second program: document 01's arithmetic as A2 amends it, A1's multiplication, A3's mended
//! edition, A4's leading zeros and A5's replay, written from the papers and not from the Rattle code,
//! to make test vectors and to compare with.

pub mod case;
#[cfg(feature = "native")]
pub mod compare;
pub mod draw;
pub mod plain;
pub mod program;
pub mod recording;
pub mod recordings;
pub mod reference;
pub mod rng;
#[cfg(feature = "z80")]
pub mod rom;
pub mod sheet;
pub mod sheets;
pub mod text;
pub mod vectors;

#[cfg(feature = "native")]
pub mod native;
#[cfg(feature = "native")]
pub mod speed;

/// A number as it stands in a slot: b1 to b5.
pub type Bytes = [u8; 5];

pub const ZERO: Bytes = [0; 5];

/// The answer of one literal or one push.
#[derive(Clone, Copy, Debug, PartialEq, Eq)]
pub struct Outcome {
    pub report: u8,
    pub depth: usize,
}

/// The answer of a run: `position` literals were done.
#[derive(Clone, Copy, Debug, PartialEq, Eq)]
pub struct RunOutcome {
    pub report: u8,
    pub position: usize,
    pub depth: usize,
}

/// One step of a count, as a line of a sheet and a record of a recording name it.
#[derive(Clone, Copy, Debug, PartialEq, Eq)]
pub enum Step {
    Push(Bytes),
    Literal(u8),
}

/// What a replay compares of each record, in this order.
#[derive(Clone, Copy, Debug, PartialEq, Eq)]
pub enum Field {
    Report,
    Depth,
    Top,
}

/// The answer of a replay. `report` is 0, or the number that refuses all of it. `count` records
/// agreed; where a field of the next differs, that is the record's number.
#[derive(Clone, Copy, Debug, PartialEq, Eq)]
pub struct ReplayOutcome {
    pub report: u8,
    pub count: usize,
    pub field: Option<Field>,
    pub depth: usize,
}

impl ReplayOutcome {
    /// The field as the C interface numbers it.
    pub fn field_number(&self) -> u8 {
        match self.field {
            None => 0,
            Some(Field::Report) => 1,
            Some(Field::Depth) => 2,
            Some(Field::Top) => 3,
        }
    }
}

/// A display cell. A double is held by its bits, so that cells compare bit for bit.
#[derive(Clone, Copy, Debug, PartialEq, Eq)]
pub enum Cell {
    Refused(u8),
    Blank,
    Odd,
    Value(u64),
}
