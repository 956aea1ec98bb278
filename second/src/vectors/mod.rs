//! The cases of crates/vectors: groups that each have a reason, in a fixed order.

mod addition;
mod cells;
mod deep;
mod division;
mod editions;
mod fifth_byte;
mod lines;
mod long;
mod multiplication;
mod normalising;
mod one_number;
mod paper;
mod random;
mod replays;
mod reports;
mod runs;

use crate::case::{After, Call, Case};
use crate::draw::{number, short};
use crate::{text, Bytes};

/// Cases in order, with the reasons as comment lines between them.
#[derive(Default)]
pub struct Vectors {
    pub stdin: String,
    pub stdout: String,
    pub cases: usize,
    /// Those since the last reason.
    of_group: u32,
}

const HEADER: &str = "\
# Cases for the calculator, made by second/vectors. A line is KIND and DEPTH, STACK, BYTES:
# o operate, p push, r run, c the view and the cell with a report, y replay, O and R operate and run
# in the edition of a number, which is the first of the bytes, z the leading zeros of four bytes, high
# byte first; bytes as LENGTH:HEX, where zeros at the end may be left out, or as LENGTH:HEX*, repeated
# up to the length.
";

impl Vectors {
    fn reason(&mut self, words: &str) {
        self.stdin.push_str(&format!("\n# {words}\n"));
        self.of_group = 0;
    }

    fn case(&mut self, case: Case) -> After {
        let after = case.answer();
        let line = text::case_line(&case);
        assert!(line.len() < lines::LONGEST, "a line of {}", line.len());
        self.line(&line, &text::answer_line(&after));
        after
    }

    fn line(&mut self, line: &str, answer: &str) {
        self.stdin.push_str(line);
        self.stdin.push('\n');
        self.stdout.push_str(answer);
        self.stdout.push('\n');
        self.cases += 1;
        self.of_group += 1;
    }

    /// One literal on these operands, with the neighbours changing from case to case.
    fn operate(&mut self, literal: u8, operands: &[Bytes]) -> After {
        let (stack, depth) = self.among_neighbours(operands);
        self.case(Case {
            call: Call::Operate(literal),
            depth,
            stack,
        })
    }

    /// The same in an edition, by its number.
    fn operate_in(&mut self, edition: u8, literal: u8, operands: &[Bytes]) -> After {
        let (stack, depth) = self.among_neighbours(operands);
        self.case(Case {
            call: Call::OperateIn(edition, literal),
            depth,
            stack,
        })
    }

    /// The operands on top, with or without a slot below, a slot above and stray bytes, so
    /// that a byte wrongly written or read is seen. Which goes by the group's own cases: those
    /// of one group stay as they are where another changes.
    fn among_neighbours(&self, operands: &[Bytes]) -> (Vec<u8>, usize) {
        let n = self.of_group;
        let mark = n.wrapping_mul(0x9E37_79B1) | 0x0101_0101;
        let mut stack = Vec::new();
        if n % 3 == 1 {
            stack.extend(number(0x5A, mark));
        }
        for operand in operands {
            stack.extend(operand);
        }
        let depth = stack.len() / 5;
        if n % 4 != 1 {
            stack.extend(number(0xA5, mark.rotate_left(13)));
        }
        stack.extend(&mark.to_be_bytes()[..(n % 5) as usize]);
        (stack, depth)
    }
}

/// Numbers at the edges of the rules: every form, each fifth byte that matters.
fn edge_numbers() -> Vec<Bytes> {
    let mut all = vec![
        [0, 0, 0, 0, 0],
        [0, 0, 0, 0, 0x5A],
        [0, 0xFF, 0, 0, 0],
        [0, 0xFF, 0, 0, 0xA5],
    ];
    for value in [1, 2, 255, 256, 32_768, 65_535] {
        all.push(short(value, 0));
        all.push(short(-value, 0x33));
    }
    for (exponent, word) in [
        (0x01, 0x0000_0000),
        (0x01, 0x7FFF_FFFF),
        (0x20, 0x4000_0000),
        (0x7F, 0x7FFF_FFFF),
        (0x80, 0x0000_0000),
        (0x80, 0x7FFF_FFFF),
        (0x81, 0x0000_0000),
        (0x81, 0x0000_0001),
        (0x90, 0x7FFF_8000),
        (0x91, 0x0000_0000),
        (0x91, 0x0000_8000),
        (0x9F, 0x7FFF_FFFF),
        (0xA0, 0x0000_0001),
        (0xA1, 0x2AAA_AAAA),
        (0xFF, 0x0000_0000),
        (0xFF, 0x7FFF_FFFF),
    ] {
        all.push(number(exponent, word));
        all.push(number(exponent, word | 0x8000_0000));
    }
    all
}

/// All cases. The paper's own answers are asserted on the way.
pub fn all() -> Vectors {
    let mut v = Vectors {
        stdin: HEADER.to_string(),
        ..Vectors::default()
    };
    paper::cases(&mut v);
    one_number::cases(&mut v);
    addition::cases(&mut v);
    fifth_byte::cases(&mut v);
    multiplication::cases(&mut v);
    division::cases(&mut v);
    reports::cases(&mut v);
    runs::cases(&mut v);
    random::cases(&mut v);
    cells::cases(&mut v);
    deep::cases(&mut v);
    long::cases(&mut v);
    lines::cases(&mut v);
    replays::cases(&mut v);
    editions::cases(&mut v);
    normalising::cases(&mut v);
    v
}
