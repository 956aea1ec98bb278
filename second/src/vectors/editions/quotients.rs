//! The 34th digit of a quotient, tried after a doubling.

use super::{found, in_both, Vectors, BOTH, MENDED};
use crate::draw::{number, short, WORDS};
use crate::reference::literals::DIVIDE;

const SIGN: u32 = 0x8000_0000;

pub fn cases(v: &mut Vectors) {
    v.reason("A3: one and ten over each small whole number in both editions");
    for n in 1..=200 {
        in_both(v, DIVIDE, &[short(1, 0), short(n, 0)]);
        in_both(v, DIVIDE, &[short(-10, 0x21), short(n, 0x44)]);
    }
    v.reason("A3: mantissas with long runs of equal digits over one another, in both editions");
    for m in WORDS {
        for n in WORDS {
            in_both(v, DIVIDE, &[number(0x85, m), number(0x83, n | SIGN)]);
        }
    }
    v.reason("A3: M and N next to one another, on both sides of a doubling");
    for word in WORDS {
        for apart in [1, 2] {
            let (m, n) = (word, word.wrapping_add(apart) & !SIGN);
            in_both(v, DIVIDE, &[number(0x81, m), number(0x81, n)]);
            v.operate_in(MENDED, DIVIDE, &[number(0x81, n), number(0x81, m)]);
        }
    }
    beside_a_half(v);
    exponents(v);
}

/// What is left after the 33rd round, doubled, is one less than N or one more: N is odd, and M is
/// found from what is to be left.
fn beside_a_half(v: &mut Vectors) {
    v.reason("A3: what is left after 33 rounds, doubled, is next to N: it goes or does not");
    let mut found_pairs = 0;
    for i in 0..400u64 {
        let n = 0x8000_0001 + 2 * (i * 2_654_435 % 0x3FFF_FFFF);
        for (r, goes) in [((n - 1) / 2, false), (n.div_ceil(2), true)] {
            // M times 2^32 leaves r: r is halved 32 times among the remainders by N.
            let halved = |r: u64| {
                if r.is_multiple_of(2) {
                    r / 2
                } else {
                    (r + n) / 2
                }
            };
            let m = (0..32).fold(r, |r, _| halved(r));
            if m < 0x8000_0000 {
                continue;
            }
            assert_eq!((u128::from(m) << 32) % u128::from(n), u128::from(r));
            let operands = [m, n].map(|word| number(0x81, word as u32 & !SIGN));
            let [shipped, mended] =
                BOTH.map(|edition| found(&v.operate_in(edition, DIVIDE, &operands)));
            assert_eq!(shipped != mended, goes, "{operands:02X?}");
            found_pairs += 1;
        }
        if found_pairs >= 100 {
            return;
        }
    }
    unreachable!("{found_pairs} pairs");
}

/// The dividend's exponent byte less the divisor's, plus 129, about 0 and about 255.
fn exponents(v: &mut Vectors) {
    let mantissas = [
        (0x0000_0000, 0x4000_0000),
        (0x0000_0001, 0x7FFF_FFFF),
        (0x7FFF_FFFF, 0x0000_0000),
    ];
    v.reason("A3: exponents about 0 and 255, with a doubling and without");
    for e in [-1, 0, 1, 2, 3, 128, 254, 255, 256, 257] {
        for dividend in [1, 2, 64, 128, 192, 254, 255] {
            let divisor = dividend - e + 129;
            if !(1..=255).contains(&divisor) {
                continue;
            }
            for (m, n) in mantissas {
                let first = number(dividend as u8, m | SIGN);
                in_both(v, DIVIDE, &[first, number(divisor as u8, n)]);
            }
        }
    }
}
