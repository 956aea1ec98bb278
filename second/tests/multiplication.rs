//! A1, in its own words, over the reference's multiplication; answers at its edges by hand.

use second::draw::{self, number, short};
use second::reference::literals::{malformed, reads_numbers, takes, MULTIPLY};
use second::reference::multiplication::multiply;
use second::reference::number::re_stack;
use second::reference::operate;
use second::rng::Rng;
use second::{Bytes, ZERO};

const SIGN: u32 = 0x8000_0000;

/// The product of these on each pair of signs has this magnitude: `None` is report 6. A zero has
/// no sign.
fn times(first: Bytes, second: Bytes, expected: Option<Bytes>) {
    let [a, b] = [first, second].map(|x| [x, negated(x)]);
    for (i, j) in [(0, 0), (0, 1), (1, 0), (1, 1)] {
        let expected = match expected {
            Some(product) if i != j && product != ZERO => Some(negated(product)),
            other => other,
        };
        for (x, y) in [(a[i], b[j]), (b[j], a[i])] {
            assert_eq!(multiply(x, y), expected, "{x:02X?} by {y:02X?}");
        }
    }
}

fn negated(x: Bytes) -> Bytes {
    match x[0] {
        0 => short(-(i32::from(x[2]) + 256 * i32::from(x[3])), x[4]),
        _ => [x[0], x[1] ^ 0x80, x[2], x[3], x[4]],
    }
}

/// Two full numbers by their exponent bytes and mantissas.
fn full(e: u8, m: u32, f: u8, n: u32, expected: Option<Bytes>) {
    times(number(e, m & !SIGN), number(f, n & !SIGN), expected);
}

#[test]
fn literal_4_takes_two_and_leaves_one() {
    assert_eq!(takes(MULTIPLY), Some(2));
    assert!(reads_numbers(MULTIPLY));
    let mut stack = [[0, 0, 7, 0, 9], [0, 0, 6, 0, 9]].concat();
    let done = operate(&mut stack, 2, 4);
    assert_eq!((done.report, done.depth), (0, 1));
    assert_eq!(stack, [[0, 0, 42, 0, 0], [0, 0, 6, 0, 9]].concat());
    for (depth, report) in [(0, 2), (1, 2), (3, 1)] {
        assert_eq!(operate(&mut stack, depth, 4).report, report);
    }
    // Malformed comes before everything that is asked of the numbers.
    for other in [ZERO, number(0xFF, 0x7FFF_FFFF)] {
        for pair in [[[0, 1, 0, 0, 0], other], [other, [0, 1, 0, 0, 0]]] {
            assert_eq!(operate(&mut pair.concat(), 2, 4).report, 3);
        }
    }
}

#[test]
fn a_short_product_is_at_most_65535() {
    times(short(256, 0), short(255, 0), Some([0, 0, 0, 0xFF, 0]));
    times(short(256, 0), short(256, 0), Some([0x91, 0, 0, 0, 0]));
    times(short(255, 1), short(257, 2), Some([0, 0, 0xFF, 0xFF, 0]));
    times(short(1, 3), short(65_535, 4), Some([0, 0, 0xFF, 0xFF, 0]));
    times(short(2, 0), short(32_768, 0), Some([0x91, 0, 0, 0, 0]));
    times(short(3, 0), short(21_846, 0), Some([0x91, 0, 1, 0, 0]));
    times(
        short(65_535, 0),
        short(65_535, 9),
        Some([0xA0, 0x7F, 0xFE, 0x00, 0x01]),
    );
    // One that is full already stays full, however small.
    times(short(2, 0), number(0x81, 0), Some([0x82, 0, 0, 0, 0]));
}

#[test]
fn a_zero_product_is_five_zero_bytes() {
    let zeros = [
        ZERO,
        [0, 0, 0, 0, 7],
        [0, 0xFF, 0, 0, 0],
        [0, 0xFF, 0, 0, 7],
    ];
    for zero in zeros {
        for x in [
            ZERO,
            [0, 0xFF, 0, 0, 1],
            short(1, 5),
            short(-65_535, 5),
            number(0x01, SIGN),
            number(0xFF, 0xFFFF_FFFF),
        ] {
            assert_eq!(multiply(zero, x), Some(ZERO), "{zero:02X?} by {x:02X?}");
            assert_eq!(multiply(x, zero), Some(ZERO), "{x:02X?} by {zero:02X?}");
        }
    }
}

#[test]
fn halves_go_up() {
    let m = 0xC000_0000;
    // P over 2^31 is C0000001 and a half, and C0000004 and a half.
    full(129, m, 129, 0x8000_0001, Some(number(129, 0x4000_0002)));
    full(129, m, 129, 0x8000_0003, Some(number(129, 0x4000_0005)));
    // The last digit of P less than a half, and more.
    full(
        129,
        0xC000_000F,
        129,
        0x9111_1111,
        Some(number(129, 0x5999_99AA)),
    );
    full(
        129,
        0xC000_0001,
        129,
        0x8000_0001,
        Some(number(129, 0x4000_0003)),
    );
    // P over 2^32 is 90000001 and a half, and 90000004 and a half.
    full(129, m, 129, 0xC000_0002, Some(number(130, 0x1000_0002)));
    full(129, m, 129, 0xC000_0006, Some(number(130, 0x1000_0005)));
    // A digit less than a half over 80000000.
    full(129, 0x8000_0001, 129, 0xFFFF_FFFF, Some(number(130, 0)));
}

#[test]
fn what_reaches_2_to_the_32_becomes_2_to_the_31() {
    for (m, n) in [
        (0x9249_2492, 0xE000_0000), // 2^63 - 2^30
        (0x9F7A_EEA6, 0xCD77_AE91), // 2^63 - 2^30 + 6
        (0x8000_0001, 0xFFFF_FFFE), // 2^63 - 2
        (0x87FB_C059, 0xF0F8_7817), // 2^63 - 1
    ] {
        full(129, m, 129, n, Some(number(130, 0)));
        full(255, m, 128, n, Some(number(255, 0)));
        full(255, m, 129, n, None);
        full(200, m, 184, n, None);
        // E is 1, 0 and -1 before rounding.
        full(1, m, 129, n, Some(number(2, 0)));
        full(1, m, 128, n, Some(number(1, 0)));
        full(1, m, 127, n, Some(ZERO));
    }
    // 2^63 - 2^30 - 7 does not reach it.
    let (m, n) = (0xAAAA_AAAD, 0xBFFF_FFFD);
    full(255, m, 129, n, Some(number(255, 0x7FFF_FFFF)));
}

#[test]
fn the_ends_of_e() {
    let (low, high) = (0x8000_0000, 0xFFFF_FFFF);
    // P is 2^62: E is the sum less 129.
    full(1, low, 127, low, Some(ZERO));
    full(1, low, 128, low, Some(number(1, 0)));
    full(1, low, 129, low, Some(number(1, 0)));
    full(255, low, 129, low, Some(number(255, 0)));
    full(255, low, 130, low, None);
    // P is 2^64 - 2^33 + 1: E is the sum less 128.
    full(1, high, 126, high, Some(ZERO));
    full(1, high, 127, high, Some(number(1, 0)));
    full(1, high, 128, high, Some(number(1, 0x7FFF_FFFE)));
    full(255, high, 128, high, Some(number(255, 0x7FFF_FFFE)));
    full(255, high, 129, high, None);
}

/// The mantissa and the exponent byte.
fn parts(b: Bytes) -> (u128, u32) {
    let word = u32::from_be_bytes([b[1], b[2], b[3], b[4]]);
    ((word | SIGN).into(), b[0].into())
}

/// A1's request: a pair overflows exactly when the exponent bytes add up to more than 384, or to
/// 384 with P at least 2^63 - 2^30. And what is stored is the nearest, halves up.
fn holds(first: Bytes, second: Bytes) {
    let words = format!("{first:02X?} by {second:02X?}");
    let answer = multiply(first, second);
    assert_eq!(answer, multiply(second, first), "{words}");
    let ((m, e), (n, f)) = (parts(re_stack(first)), parts(re_stack(second)));
    if e == 0 || f == 0 {
        assert_eq!(answer, Some(ZERO), "{words}");
        return;
    }
    let p = m * n;
    let overflows = e + f > 384 || e + f == 384 && p >= (1 << 63) - (1 << 30);
    assert_eq!(answer.is_none(), overflows, "{words}");
    let Some(product) = answer else {
        return;
    };
    // Below half the smallest number, 2^-129, it is zero; from there on it has a sign.
    let zero = e + f < 128 || e + f == 128 && p < 1 << 63;
    assert_eq!(product == ZERO, zero, "{words}");
    if zero {
        return;
    }
    let negative = (first[1] ^ second[1]) & 0x80 != 0;
    assert_eq!(product[1] & 0x80 != 0, negative, "{words}");
    let short = first[0] == 0 && second[0] == 0 && p >> (320 - e - f) <= 65_535;
    assert_eq!(product[0] == 0, short, "{words}");
    let (t, g) = parts(re_stack(product));
    // All that is below the smallest number is the smallest.
    if e + f == 128 || e + f == 129 && p < 1 << 63 {
        assert_eq!((t, g), (1 << 31, 1), "{words}");
        return;
    }
    // t is P over 2^places, and a half is added before the floor is taken.
    let places = 160 + g - e - f;
    assert_eq!(t, (2 * p + (1 << places)) >> (places + 1), "{words}");
}

#[test]
fn multiplication_is_as_a1_says() {
    let mut rng = Rng::new(4);
    let mut tried = 0;
    while tried < 500_000 {
        let first = draw::well_formed(&mut rng);
        let second = match rng.below(2) {
            0 => draw::factor(&mut rng, first),
            _ => draw::beside(&mut rng, first),
        };
        if !malformed(second) {
            holds(first, second);
            tried += 1;
        }
    }
}
