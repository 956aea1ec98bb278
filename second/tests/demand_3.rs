//! Demand 3, in its own words, over the reference's division; and as A3 has it for the mended
//! edition, without its exception.

use second::draw::{self, number, EXPONENTS, WORDS};
use second::reference::division::divide;
use second::reference::edition::BOTH;
use second::reference::literals::malformed;
use second::reference::number::re_stack;
use second::reference::Edition;
use second::rng::Rng;
use second::Bytes;

fn mantissa(b: Bytes) -> u128 {
    u128::from(u32::from_be_bytes([b[1], b[2], b[3], b[4]]) | 0x8000_0000)
}

/// The listing's 33 trial subtractions: the digits as one number, and what is left.
fn rounds(m: u128, n: u128) -> (u128, u128) {
    let (mut left, mut digits) = (m, 0);
    for round in 0..33 {
        if round > 0 {
            left *= 2;
        }
        let goes = left >= n;
        digits = 2 * digits + u128::from(goes);
        if goes {
            left -= n;
        }
    }
    (digits, left)
}

/// Whether the two editions differ in it.
fn holds(first: Bytes, second: Bytes) -> bool {
    let (dividend, divisor) = (re_stack(first), re_stack(second));
    let (m, n) = (mantissa(dividend), mantissa(divisor));
    let (digits, r) = rounds(m, n);
    assert_eq!((digits, r), ((m << 32) / n, (m << 32) % n));

    let less = m < n;
    let e = i32::from(dividend[0]) - i32::from(divisor[0]) + if less { 128 } else { 129 };
    let exact_over_n = m << if less { 32 } else { 31 };
    // The floor of the value plus one half.
    let rounded = (2 * exact_over_n + n) / (2 * n);
    for edition in BOTH {
        let words = format!("{edition:?}: {first:02X?} / {second:02X?}");
        let answer = divide(edition, first, second);
        assert_eq!(answer.is_none(), e > 255, "{words}");
        if (1..=255).contains(&e) {
            let result = answer.unwrap();
            let one_lower = match edition {
                Edition::Shipped => less && 2 * r >= n,
                Edition::Mended => false,
            };
            assert_eq!(i32::from(result[0]), e, "{words}");
            assert_eq!(mantissa(result), rounded - u128::from(one_lower), "{words}");
            assert_eq!(result[1] >> 7, (dividend[1] ^ divisor[1]) >> 7, "{words}");
        }
    }
    let [shipped, mended] = BOTH.map(|edition| divide(edition, first, second));
    let differ = (1..=255).contains(&e) && less && 2 * r >= n;
    assert_eq!(shipped != mended, differ, "{first:02X?} / {second:02X?}");
    differ
}

#[test]
fn division_is_as_demand_3_says() {
    let mut rng = Rng::new(3);
    let (mut tried, mut differ) = (0, 0);
    while tried < 500_000 {
        let first = draw::well_formed(&mut rng);
        let second = draw::beside(&mut rng, first);
        let counts_as_zero = |b: Bytes| re_stack(b)[0] == 0;
        if !malformed(second) && !counts_as_zero(first) && !counts_as_zero(second) {
            differ += u32::from(holds(first, second));
            tried += 1;
        }
    }
    assert!(differ > 50_000, "{differ}");
}

#[test]
fn and_so_it_is_where_digits_run_long_and_exponents_end() {
    let mut differ = 0;
    for m in WORDS {
        for n in WORDS {
            for exponent in EXPONENTS {
                for near in [0, 1, 2] {
                    let n = (n ^ 0x8000_0000).wrapping_sub(near);
                    differ += u32::from(holds(number(0x81, m), number(exponent, n)));
                    differ += u32::from(holds(number(exponent, m), number(0x81, n)));
                    differ += u32::from(holds(number(exponent, n), number(exponent, m)));
                }
            }
        }
    }
    assert!(differ > 1_000, "{differ}");
}
