//! What `calc` answers to a sheet, a line a step: the report, the depth and the top's bytes.

use crate::draw::short;
use crate::reference::edition::BOTH;
use crate::reference::literals::{ALL, NAMES};
use crate::reference::{step, view, Edition};
use crate::text::spaced;
use crate::{Bytes, Step};

/// The bytes of the stack that a program has: zeros, and none taken.
pub const STACK_LEN: usize = 16_000;

/// The most bytes that may stand in a line before its comment.
pub const LONGEST: usize = 65_535;

const BYTE_ORDER_MARK: &[u8] = &[0xEF, 0xBB, 0xBF];

/// What is written, and the line that could not be read, if any: nothing after it is done.
#[derive(Debug, PartialEq, Eq)]
pub struct Followed {
    pub answers: String,
    pub unreadable: Option<usize>,
}

/// What a line of a sheet says: a step, or the edition from there on, which is no step.
#[derive(Clone, Copy, Debug, PartialEq, Eq)]
pub enum Line {
    Step(Step),
    Edition(Edition),
}

pub fn follow(input: &[u8]) -> Followed {
    let mut stack = vec![0; STACK_LEN];
    let mut depth = 0;
    let mut edition = Edition::Shipped;
    let mut answers = String::new();
    let (lines, unreadable) = read(input);
    for (_, line) in lines {
        match line {
            Line::Edition(named) => edition = named,
            Line::Step(given) => {
                let after = step(edition, given, &mut stack, depth);
                depth = after.depth;
                answers += &format!("{}\n", answer(after.report, &stack, depth));
            }
        }
    }
    if let Some(line) = unreadable {
        answers += &format!("? line {line}\n");
    }
    Followed {
        answers,
        unreadable,
    }
}

/// What is said of a step: the report, and the depth and the top of the stack after it.
pub fn answer(report: u8, stack: &[u8], depth: usize) -> String {
    let top = match view(stack, depth) {
        None => "-".to_string(),
        Some(start) => spaced(&stack[start..start + 5]),
    };
    format!("{report} {depth} {top}")
}

/// What the lines of a sheet say, each with its number, up to the line that can't be read. Those
/// with nothing before their comment say nothing.
pub fn read(input: &[u8]) -> (Vec<(usize, Line)>, Option<usize>) {
    let mut said = Vec::new();
    let input = input.strip_prefix(BYTE_ORDER_MARK).unwrap_or(input);
    for (i, text) in lines(input).into_iter().enumerate() {
        let Some(words) = words(text) else {
            return (said, Some(i + 1));
        };
        if words.is_empty() {
            continue;
        }
        let Some(line) = line(&words) else {
            return (said, Some(i + 1));
        };
        said.push((i + 1, line));
    }
    (said, None)
}

/// A line ends with a line feed, a carriage return, or a carriage return and a line feed. The
/// last needs no end where it has a byte.
fn lines(input: &[u8]) -> Vec<&[u8]> {
    let mut all = Vec::new();
    let mut left = input;
    while let Some(n) = left.iter().position(|&b| b == b'\n' || b == b'\r') {
        all.push(&left[..n]);
        let end = if left[n..].starts_with(b"\r\n") { 2 } else { 1 };
        left = &left[n + end..];
    }
    if !left.is_empty() {
        all.push(left);
    }
    all
}

/// The words before the comment; `None` where too much stands there.
fn words(line: &[u8]) -> Option<Vec<&[u8]>> {
    let before = line.split(|&b| b == b'#').next().unwrap_or(line);
    (before.len() <= LONGEST).then(|| {
        before
            .split(|&b| b == b' ' || b == b'\t')
            .filter(|word| !word.is_empty())
            .collect()
    })
}

fn line(words: &[&[u8]]) -> Option<Line> {
    match words {
        [b"edition", name] => {
            let named = |edition: &Edition| edition.name().as_bytes() == *name;
            BOTH.into_iter().find(named).map(Line::Edition)
        }
        [b"push", n] => pushed(n).map(Step::Push).map(Line::Step),
        [b"literal", n] => {
            let literal = u8::try_from(decimal(n)?).ok()?;
            Some(Line::Step(Step::Literal(literal)))
        }
        [name] => {
            let i = NAMES.iter().position(|known| known.as_bytes() == *name)?;
            Some(Line::Step(Step::Literal(ALL[i])))
        }
        [_, _, _, _, _] => {
            let number: Option<Vec<u8>> = words.iter().map(|word| byte(word)).collect();
            let number = Bytes::try_from(number?).ok()?;
            Some(Line::Step(Step::Push(number)))
        }
        _ => None,
    }
}

/// The short number of a value from -65,535 to 65,535.
fn pushed(word: &[u8]) -> Option<Bytes> {
    let (sign, digits) = match word.strip_prefix(b"-") {
        Some(digits) => (-1, digits),
        None => (1, word),
    };
    let magnitude = decimal(digits)?;
    (magnitude <= 65_535).then(|| short(sign * magnitude as i32, 0))
}

/// Any number of decimal digits, one at least. What is beyond all ranges here comes out as some
/// number that is so too.
fn decimal(digits: &[u8]) -> Option<u64> {
    if digits.is_empty() || !digits.iter().all(u8::is_ascii_digit) {
        return None;
    }
    let grow = |n: u64, d: &u8| n.saturating_mul(10).saturating_add(u64::from(d - b'0'));
    Some(digits.iter().fold(0, grow))
}

/// Two hexadecimal digits of either case.
fn byte(word: &[u8]) -> Option<u8> {
    let [high, low] = word else {
        return None;
    };
    let digit = |b: u8| char::from(b).to_digit(16);
    Some((16 * digit(*high)? + digit(*low)?) as u8)
}
