//! The format itself: what a field may be, and lines that are no case. The answers that are not
//! `?` are those of cases written in the ordinary way.

use super::Vectors;
use crate::case::{Call, Case};
use crate::text::{answer_line, hex};

/// The longest line, with its line feed.
pub const LONGEST: usize = 65_536;

/// Ways to write the report 2 at depth 1 of the stack 82 40 00 00 00.
const RIGHT: [&str; 6] = [
    "c1 5:8240000000 1:02",
    "c1 5:8240 1:02",
    "c1 5:824000 1:02*",
    "c1 5:8240000000* 1:02",
    "c01 005:8240 0000001:02",
    "c00000000000000000000000001 5:8240 1:02",
];

/// Ways to write the stack 0A 0B 0C 0A 0B 0C 0A at depth 1, with report 0.
const REPEATED: [&str; 4] = [
    "c1 7:0A0B0C0A0B0C0A 1:00",
    "c1 7:0A0B0C* 1:00",
    "c1 7:0a0B0c0a0b0C* 1:",
    "c1 7:0A0B0C0A0B0C0A* 1:00*",
];

const WRONG: [&str; 50] = [
    "x",
    " ",
    "c",
    "1",
    "c1",
    "c1 ",
    "c1 5:8240",
    "c1 5:8240 ",
    "c1 5:8240 1",
    "c1 5:8240  1:02",
    "c1  5:8240 1:02",
    "c1 5:8240 1:02 ",
    "c1 5:8240 1:02 1:02",
    " c1 5:8240 1:02",
    "c 1 5:8240 1:02",
    "c 5:8240 1:02",
    "c-1 5:8240 1:02",
    "cA 5:8240 1:02",
    "C1 5:8240 1:02",
    "q1 5:8240 1:02",
    "?1 5:8240 1:02",
    "c1 :8240 1:02",
    "c1 5 8240 1:02",
    "c1 5;8240 1:02",
    "c1 A:8240 1:02",
    "c1 -5:8240 1:02",
    "c1 5:824 1:02",
    "c1 5:82G0 1:02",
    "c1 5:82 40 1:02",
    "c1 5:824000000000 1:02",
    "c1 5:8240 1:2",
    "c1 5:8240 1:0202",
    "c1 5:8240 0:02",
    "c1 5:8240 0:",
    "c1 5:8240 2:0202",
    "c1 5:8240 2:02*",
    "o1 5:8240 0:",
    "o1 5:8240 2:0202",
    "c1 5:* 1:02",
    "c1 0:* 1:02",
    "c1 5:*82 1:02",
    "c1 5:824* 1:02",
    "c1 5:8240** 1:02",
    "c1 5:8240*00 1:02",
    "c1 5:8240 * 1:02",
    "c1 5:824000000000* 1:02",
    "c1 5:8240 1:0202*",
    "c18446744073709551616 5:8240 1:02",
    "c1 18446744073709551621:8240 1:02",
    "c1 5:8240 18446744073709551617:02",
];

pub fn cases(v: &mut Vectors) {
    v.reason("ways to write one case");
    let call = Call::Cell(2);
    answered(v, &RIGHT, call, vec![0x82, 0x40, 0, 0, 0]);
    let call = Call::Cell(0);
    answered(v, &REPEATED, call, vec![10, 11, 12, 10, 11, 12, 10]);
    v.reason("lines that are no case");
    for line in WRONG {
        v.line(line, "?");
    }
    v.reason("stacks of up to 17,000 bytes and lists of up to 61,000");
    let (call, mut stack) = (Call::Cell(2), vec![0x82, 0x40]);
    stack.resize(17_000, 0);
    answered(v, &["c1 17000:8240 1:02"], call, stack);
    let call = Call::Run(vec![27; 61_000]);
    answered(v, &["r1 5:8240 61000:1B*"], call, vec![0x82, 0x40, 0, 0, 0]);
    for line in [
        "c1 17001:8240 1:02",
        "r1 5:8240 61001:1B*",
        "p1 5:8240 61001:",
    ] {
        v.line(line, "?");
    }
    longest(v);
}

fn answered(v: &mut Vectors, lines: &[&str], call: Call, stack: Vec<u8>) {
    let depth = 1;
    let answer = answer_line(&Case { call, depth, stack }.answer());
    for line in lines {
        v.line(line, &answer);
    }
}

/// A line that just fits, one that has a byte more, one that has many, and a long comment. The
/// next line is read as ever.
fn longest(v: &mut Vectors) {
    v.reason("the longest line, 65,536 bytes with its line feed, and longer ones");
    let literals = [49, 49, 5, 15].repeat(8_189);
    let list = format!("{}:{}", literals.len(), hex(&literals));
    let case = Case {
        call: Call::Run(literals),
        depth: 1,
        stack: [vec![0, 0, 1], vec![0; 17]].concat(),
    };
    let fits = format!("r1 20:0000010000 {list}");
    assert_eq!(fits.len() + 1, LONGEST);
    v.line(&fits, &answer_line(&case.answer()));
    let longer = format!("r1 100:0000010000 {list}");
    assert_eq!(longer.len() + 1, LONGEST + 1);
    v.line(&longer, "?");
    v.line("c0 0: 1:00", "0 0 0 0: 0: B0");
    v.line(&"x".repeat(70_000), "?");
    v.reason("a comment may have any length ".repeat(2_400).trim_end());
    v.line("c0 0: 1:00", "0 0 0 0: 0: B0");
}
