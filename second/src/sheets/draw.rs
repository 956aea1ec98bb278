//! Sheets drawn at random: mostly lines that can be read, and in some of the sheets a slip.

use crate::draw::{self, minus_65536};
use crate::reference::literals::{ADD, NAMES, SUBTRACT};
use crate::rng::Rng;
use crate::sheet::LONGEST;
use crate::text::spaced;

const BYTE_ORDER_MARK: &[u8] = b"\xEF\xBB\xBF";

/// Bytes that a slip puts where they do not belong.
const STRAY: &[u8] = b"\0\x01\x07\x08\x0B\x0C\x1B\x7F\x80\xA0\xBB\xBF\xEF\xFF\r\n\t -+#O0.,:";

/// One in so many has a slip, and about half name an edition, one of these.
pub fn sheet(rng: &mut Rng, slips: u64, editions: &[&str]) -> Vec<u8> {
    let lines = 1 + rng.below(40);
    let slip = rng.one_in(slips).then(|| rng.below(lines));
    let ends = rng.pick(&[
        &["\n"][..],
        &["\n"],
        &["\r\n"],
        &["\r"],
        &["\n", "\r\n", "\r", "\n\n", "\r\r\n"],
    ]);
    let names_editions = rng.one_in(2);
    let mut sheet = Vec::new();
    if rng.one_in(6) {
        sheet.extend(BYTE_ORDER_MARK);
    }
    for i in 0..lines {
        if slip == Some(i) {
            sheet.extend(wrong(rng));
        } else if names_editions && rng.one_in(5) {
            let named = edition(rng, editions);
            sheet.extend(right(rng, named));
        } else if rng.one_in(12) {
            sheet.extend(decided(rng));
        } else {
            let step = step(rng);
            sheet.extend(right(rng, step));
        }
        if i + 1 < lines || !rng.one_in(3) {
            sheet.extend(rng.pick(ends).as_bytes());
        }
    }
    sheet
}

/// A line that can be read, with this in it or nothing.
fn right(rng: &mut Rng, said: Vec<u8>) -> Vec<u8> {
    let mut line = Vec::new();
    if rng.one_in(8) {
        line.extend(blanks(rng));
    }
    if !rng.one_in(10) {
        line.extend(said);
    }
    if rng.one_in(6) {
        line.extend(blanks(rng));
    }
    if rng.one_in(150) {
        line.resize(LONGEST - rng.below(3) as usize, b' ');
    }
    if rng.one_in(6) {
        line.extend(comment(rng));
    }
    line
}

fn edition(rng: &mut Rng, editions: &[&str]) -> Vec<u8> {
    let mut line = b"edition".to_vec();
    line.extend(blank(rng));
    line.extend(rng.pick(editions).bytes());
    line
}

/// Lines whose last goes by the edition.
fn decided(rng: &mut Rng) -> Vec<u8> {
    let words = match rng.below(4) {
        0 => format!("push {}\npush {}\ndivide", rng.below(9), 1 + rng.below(99)),
        1 => {
            let literal = rng.pick(&["add", "subtract"]);
            let code = if literal == "add" { ADD } else { SUBTRACT };
            let [first, second] = minus_65536::pair(rng, code).map(|b| spaced(&b));
            format!("{first}\n{second}\n{literal}")
        }
        2 => {
            let whole = spaced(&minus_65536::whole(rng));
            format!("{whole}\n{}", rng.pick(&["int", "truncate"]))
        }
        _ => format!("00 FF 00 00 {:02X}\n{}", rng.byte(), rng.pick(&NAMES)),
    };
    words.into_bytes()
}

fn blanks(rng: &mut Rng) -> Vec<u8> {
    let count = match rng.below(12) {
        0 => 200 + rng.below(200),
        1 => rng.below(6_000),
        _ => 1 + rng.below(4),
    };
    (0..count).map(|_| rng.pick(b"   \t")).collect()
}

fn blank(rng: &mut Rng) -> Vec<u8> {
    if rng.one_in(6) {
        blanks(rng)
    } else {
        vec![b' ']
    }
}

/// Any bytes but the ends of a line, a few or very many.
fn comment(rng: &mut Rng) -> Vec<u8> {
    let count = match rng.below(60) {
        0 => 60_000 + rng.below(80_000),
        1..=3 => rng.below(9_000),
        _ => rng.below(30),
    };
    let plain = count > 100 || rng.one_in(2);
    let mut bytes = vec![b'#'];
    bytes.extend((0..count).map(|_| match rng.byte() {
        _ if plain => b'-',
        b'\n' | b'\r' => b'#',
        byte => byte,
    }));
    bytes
}

fn step(rng: &mut Rng) -> Vec<u8> {
    match rng.below(10) {
        0..=2 => number(rng),
        3..=5 => {
            let sign = if rng.one_in(2) { "-" } else { "" };
            let n = match rng.below(4) {
                0 => rng.below(5),
                1 => 65_535 - rng.below(3),
                _ => rng.below(65_536),
            };
            named(rng, b"push", sign, n)
        }
        6 => {
            let n = match rng.below(3) {
                0 => rng.below(256),
                _ => draw::literal(rng).into(),
            };
            named(rng, b"literal", "", n)
        }
        _ => rng.pick(&NAMES).into(),
    }
}

/// Five bytes in digits of either case.
fn number(rng: &mut Rng) -> Vec<u8> {
    let words: Vec<String> = draw::any(rng)
        .map(|byte| match rng.below(3) {
            0 => format!("{byte:02x}"),
            _ => format!("{byte:02X}"),
        })
        .to_vec();
    let mut line = words[0].clone().into_bytes();
    for word in &words[1..] {
        line.extend(blank(rng));
        line.extend(word.bytes());
    }
    line
}

/// A word and a decimal number, with zeros before it or not.
fn named(rng: &mut Rng, word: &[u8], sign: &str, n: u64) -> Vec<u8> {
    let zeros = match rng.below(10) {
        0 => 1 + rng.below(30),
        1 if rng.one_in(20) => rng.below(60_000),
        _ => 0,
    };
    let mut line = word.to_vec();
    line.extend(blank(rng));
    line.extend(sign.bytes());
    line.extend(vec![b'0'; zeros as usize]);
    line.extend(n.to_string().bytes());
    line
}

/// What people and programs write instead. Most of these lines can't be read.
fn wrong(rng: &mut Rng) -> Vec<u8> {
    const LINES: [&str; 66] = [
        "edition",
        "edition ",
        "edition # mended",
        "edition mended",
        "edition 0",
        "edition 1",
        "edition new",
        "edition Mended",
        "edition SHIPPED",
        "edition mende",
        "edition shipped.",
        "edition mended shipped",
        "edition a b c d",
        "Edition mended",
        "editionmended",
        "mended",
        "0",
        "2",
        "5",
        "15",
        "65535",
        "-1",
        "1.5",
        "1e3",
        "push",
        "push ",
        "push -",
        "push 65536",
        "push -65536",
        "push 99999",
        "push 100000",
        "push 131071",
        "push 4294967295",
        "push 4294967301",
        "push 18446744073709551615",
        "push 18446744073709551621",
        "push -18446744073709551617",
        "push +5",
        "push --5",
        "push - 5",
        "push 5-",
        "push 5 5",
        "push 5,",
        "push 1O",
        "push 0x5",
        "push A",
        "push5",
        "literal",
        "literal 256",
        "literal 261",
        "literal 300",
        "literal -5",
        "literal +5",
        "literal 65541",
        "literal 18446744073709551621",
        "literal 5 5",
        "literal add",
        "push add",
        "add add",
        "add 5",
        "hello",
        "dividee",
        "times",
        "multiplication",
        "restack",
        "re stack",
    ];
    match rng.below(16) {
        0..=3 => rng.pick(&LINES).into(),
        4 => number(rng)
            .into_iter()
            .map(|b| if b == b'0' { b'O' } else { b })
            .collect(),
        5 => without_blanks(rng),
        6 => {
            // One word too few, or one or two too many.
            let mut line = number(rng);
            match rng.below(3) {
                0 => line.truncate(line.len() - 3),
                1 => line.extend(b" 00"),
                _ => line.extend(b" 00 00"),
            }
            line
        }
        7 => {
            let name = rng.pick(&NAMES);
            match rng.below(3) {
                0 => name.to_uppercase().into(),
                1 => (name[..1].to_uppercase() + &name[1..]).into(),
                _ => name[..name.len() - 1].into(),
            }
        }
        8 => {
            let mut line = step(rng);
            line.extend(blank(rng));
            line.extend(step(rng));
            line
        }
        9 => [BYTE_ORDER_MARK, &step(rng)].concat(),
        10 => {
            // Too much before the comment, or just so much that it fits.
            let mut line = step(rng);
            line.resize(LONGEST - 1 + rng.below(4) as usize, rng.pick(b" \t"));
            line.extend(comment(rng));
            line
        }
        11 => changed(rng, b"edition mended".to_vec()),
        12 => changed(rng, b"edition shipped".to_vec()),
        13 => (0..1 + rng.below(20)).map(|_| rng.byte()).collect(),
        _ => {
            let line = step(rng);
            changed(rng, line)
        }
    }
}

/// One blank of a number is missing, or all are.
fn without_blanks(rng: &mut Rng) -> Vec<u8> {
    let line = number(rng);
    if rng.one_in(2) {
        return line.into_iter().filter(u8::is_ascii_hexdigit).collect();
    }
    let is_blank = |b: &u8| !b.is_ascii_hexdigit();
    let first = line.iter().position(is_blank).unwrap_or(0);
    let digits = line[first..].iter().position(u8::is_ascii_hexdigit);
    [&line[..first], &line[first + digits.unwrap_or(0)..]].concat()
}

/// A line with a byte changed, put in or left out.
fn changed(rng: &mut Rng, mut line: Vec<u8>) -> Vec<u8> {
    let at = rng.below(line.len() as u64) as usize;
    match rng.below(3) {
        0 => line[at] = rng.pick(STRAY),
        1 => line.insert(at, rng.pick(STRAY)),
        _ => {
            line.remove(at);
        }
    }
    line
}
