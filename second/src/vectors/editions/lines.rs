//! How the cases of an edition are written: its number is the first of the bytes, and then there is
//! one literal, or there are as many as there may be.

use super::Vectors;
use crate::case::{Call, Case};
use crate::text::answer_line;

/// Ways to write a tenth in the mended edition.
const TENTH: [&str; 3] = [
    "O2 10:81000000008420000000 2:0105",
    "O2 10:81000000008420 2:0105*",
    "O0002 0010:81000000008420 0002:0105",
];

const WRONG: [&str; 25] = [
    "O",
    "R",
    "O1",
    "R1 5:8240",
    "O1 5:8240 0:",
    "O1 5:8240 1:01",
    "O1 5:8240 1:",
    "O1 5:8240 3:011B1B",
    "O1 5:8240 3:01*",
    "O1 5:8240 2:011B1B",
    "O1 5:8240 2:01 1B",
    "O1 5:8240 2:1",
    "O 1 5:8240 2:011B",
    "O-1 5:8240 2:011B",
    "O1 5:824 2:011B",
    "O1 17001:8240 2:011B",
    "R1 5:8240 0:",
    "R1 5:8240 0:*",
    "R1 5:8240 2:011B ",
    "R1 5:8240 61002:01*",
    "R1 5:8240 61002:",
    "R1 17001:8240 2:011B",
    "P1 10:8240 5:8240000000",
    "Y0 10:8240 16:",
    "OR1 5:8240 2:011B",
];

pub fn cases(v: &mut Vectors) {
    v.reason("A3: ways to write one case in an edition");
    let tenth = vec![0x81, 0, 0, 0, 0, 0x84, 0x20, 0, 0, 0];
    for line in TENTH {
        answered(v, line, Call::OperateIn(1, 5), 2, tenth.clone());
    }
    let three = vec![0x82, 0x40, 0, 0, 0];
    for (line, call) in [
        ("O1 5:8240 2:", Call::OperateIn(0, 0)),
        ("O1 5:8240 2:01", Call::OperateIn(1, 0)),
        ("O1 5:8240 2:01*", Call::OperateIn(1, 1)),
        ("O1 5:8240 2:02*", Call::OperateIn(2, 2)),
        ("R1 5:8240 1:", Call::RunIn(0, vec![])),
        ("R1 5:8240 1:01", Call::RunIn(1, vec![])),
        ("R1 5:8240 1:FF", Call::RunIn(255, vec![])),
        ("R1 5:8240 3:01", Call::RunIn(1, vec![0, 0])),
        ("R1 5:8240 3:011B*", Call::RunIn(1, vec![27, 1])),
        ("R1 5:8240 61001:01*", Call::RunIn(1, vec![1; 61_000])),
        ("R1 5:8240 61001:", Call::RunIn(0, vec![0; 61_000])),
        ("R1 5:8240 61001:02*", Call::RunIn(2, vec![2; 61_000])),
    ] {
        answered(v, line, call, 1, three.clone());
    }
    v.reason("A3: lines that are no case in an edition");
    for line in WRONG {
        v.line(line, "?");
    }
}

fn answered(v: &mut Vectors, line: &str, call: Call, depth: usize, stack: Vec<u8>) {
    let answer = answer_line(&Case { call, depth, stack }.answer());
    v.line(line, &answer);
}
