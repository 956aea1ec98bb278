//! Document 01, "The ending": one exact rounding in place of doubling digit by digit; and A4's number
//! of leading zeros, which is how many doublings there would be.

use super::number::{pow2, store_full, Scaled};
use crate::{Bytes, ZERO};

/// A4, "Normalising in one go": 32 if T is zero, else the one z for which T times 2^z is at least
/// 2^31 and below 2^32. It is looked for by these words.
pub fn leading_zeros(t: u32) -> u8 {
    if t == 0 {
        return 32;
    }
    let is_it = |z: &u8| (pow2(31)..pow2(32)).contains(&(i128::from(t) * pow2((*z).into())));
    (0..32).find(is_it).expect("a T that is not zero has one")
}

/// `digits` is T followed by `places` rounding digits, all as one whole number. `None` is
/// report 6.
///
/// Doubling T until its top bit is set, with the digits coming in behind it, reads off the
/// whole part of digits * 2^doublings / 2^places; adding the digit that would come next is
/// adding a half before the whole part is taken.
pub fn ending(negative: bool, digits: i128, places: u32, exponent: i32) -> Option<Bytes> {
    let t = u32::try_from(digits / pow2(places)).expect("T is below 2^32");
    if t == 0 {
        return Some(ZERO);
    }
    let doublings = u32::from(leading_zeros(t));
    let exponent = exponent - doublings as i32;
    let sign = if negative { -1 } else { 1 };
    match exponent {
        256.. => None,
        1..=255 => {
            let twice = digits * pow2(doublings + 1) / pow2(places);
            Some(store_full(Scaled {
                units: sign * ((twice + 1) / 2),
                exponent,
            }))
        }
        _ => Some(too_small(negative, exponent)),
    }
}

/// What an exponent of 0 or below ends in: at 0 the smallest number, below it zero.
pub fn too_small(negative: bool, exponent: i32) -> Bytes {
    if exponent < 0 {
        return ZERO;
    }
    let smallest = pow2(31);
    store_full(Scaled {
        units: if negative { -smallest } else { smallest },
        exponent: 1,
    })
}
