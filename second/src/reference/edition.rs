//! Document 02, A3, "The mended edition": which of the two ROMs it is. What differs stands where it
//! is done: in division, in a short sum, in truncation, and in which operands are malformed.

#[derive(Clone, Copy, Debug, PartialEq, Eq)]
pub enum Edition {
    Shipped,
    Mended,
}

pub const BOTH: [Edition; 2] = [Edition::Shipped, Edition::Mended];

impl Edition {
    /// The edition that the C interface has by this number.
    pub fn numbered(number: u8) -> Option<Edition> {
        BOTH.into_iter().find(|edition| edition.number() == number)
    }

    pub fn number(self) -> u8 {
        match self {
            Edition::Shipped => 0,
            Edition::Mended => 1,
        }
    }

    pub fn name(self) -> &'static str {
        match self {
            Edition::Shipped => "shipped",
            Edition::Mended => "mended",
        }
    }
}
