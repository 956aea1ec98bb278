//! How such a case is written: four bytes, high byte first.

use super::Vectors;
use crate::case::{Call, Case};
use crate::text::answer_line;

/// Ways to write 00 00 01 00, and others whose last bytes are left out or repeated.
const RIGHT: [(&str, u32); 9] = [
    ("z1 5:8240 4:00000100", 0x0000_0100),
    ("z1 5:8240 4:000001", 0x0000_0100),
    ("z0001 005:8240 00004:000001", 0x0000_0100),
    ("z1 5:8240 4:00000100*", 0x0000_0100),
    ("z1 5:8240 4:", 0),
    ("z1 5:8240 4:00*", 0),
    ("z1 5:8240 4:01", 0x0100_0000),
    ("z1 5:8240 4:01*", 0x0101_0101),
    ("z1 5:8240 4:00Ff*", 0x00FF_00FF),
];

const WRONG: [&str; 22] = [
    "z",
    "z1",
    "z1 5:8240",
    "z1 5:8240 ",
    "z1 5:8240 0:",
    "z1 5:8240 1:FF",
    "z1 5:8240 2:00FF",
    "z1 5:8240 3:0000FF",
    "z1 5:8240 3:FF*",
    "z1 5:8240 5:00000000FF",
    "z1 5:8240 5:FF*",
    "z1 5:8240 8:000000FF",
    "z1 5:8240 61000:",
    "z1 5:8240 4:000000FF00",
    "z1 5:8240 4:000000F",
    "z1 5:8240 4:0000 00FF",
    "z1 5:8240 4:*",
    "z1 5:8240 4:000000FF ",
    "z 5:8240 4:000000FF",
    "z-1 5:8240 4:000000FF",
    "Z1 5:8240 4:000000FF",
    "z1 17001:8240 4:000000FF",
];

pub fn cases(v: &mut Vectors) {
    v.reason("A4: ways to write a number of four bytes");
    for (line, t) in RIGHT {
        let case = Case {
            call: Call::LeadingZeros(t),
            depth: 1,
            stack: vec![0x82, 0x40, 0, 0, 0],
        };
        v.line(line, &answer_line(&case.answer()));
    }
    v.reason("A4: lines that have no number of four bytes");
    for line in WRONG {
        v.line(line, "?");
    }
}
