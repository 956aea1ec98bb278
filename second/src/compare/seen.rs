//! What can be seen of a call: by the reference as it should be, and of the C interface.

use super::given::{Call, Given};
use crate::text::counted;
use crate::{native, reference, Cell};
use std::fmt;
use std::hint::black_box;

#[derive(PartialEq, Eq)]
pub struct Seen {
    /// The report, the view's length, the cell's kind, or the number of zeros.
    pub answer: usize,
    depth: usize,
    /// The position of a run, the start of a view, the count of a replay.
    word: usize,
    /// The report that a cell names, the field of a replay.
    pub byte: u8,
    /// The bits of a cell's double.
    bits: u64,
    stack: Vec<u8>,
    beside_untouched: bool,
    /// The bytes that a call only reads are as they were.
    read_untouched: bool,
}

impl Seen {
    fn before(given: &Given) -> Seen {
        Seen {
            answer: 0,
            depth: given.depth,
            word: given.old_word,
            byte: given.old_byte,
            bits: given.old_bits,
            stack: Vec::new(),
            beside_untouched: true,
            read_untouched: true,
        }
    }
}

pub fn reference(given: &Given) -> Seen {
    let mut seen = Seen::before(given);
    let mut stack = given.stack.clone();
    match &given.call {
        Call::Operate(literal) => {
            let o = reference::operate(&mut stack, given.depth, *literal);
            (seen.answer, seen.depth) = (o.report.into(), o.depth);
        }
        Call::Push(number) => {
            let o = reference::push(&mut stack, given.depth, number);
            (seen.answer, seen.depth) = (o.report.into(), o.depth);
        }
        Call::Run(literals) => {
            let o = reference::run(&mut stack, given.depth, literals);
            (seen.answer, seen.depth) = (o.report.into(), o.depth);
            seen.word = o.position;
        }
        Call::OperateIn(edition, literal) => {
            let o = reference::operate_in(*edition, &mut stack, given.depth, *literal);
            (seen.answer, seen.depth) = (o.report.into(), o.depth);
        }
        Call::RunIn(edition, literals) => {
            let o = reference::run_in(*edition, &mut stack, given.depth, literals);
            (seen.answer, seen.depth) = (o.report.into(), o.depth);
            seen.word = o.position;
        }
        Call::View => {
            if let Some(start) = reference::view(&stack, given.depth) {
                (seen.answer, seen.word) = (5, start);
            }
        }
        Call::Cell(report) => match reference::cell(*report, &stack, given.depth) {
            Cell::Refused(named) => (seen.answer, seen.byte) = (native::REFUSED.into(), named),
            Cell::Blank => seen.answer = native::BLANK.into(),
            Cell::Odd => seen.answer = native::ODD.into(),
            Cell::Value(bits) => (seen.answer, seen.bits) = (native::VALUE.into(), bits),
        },
        Call::Replay(recording) => {
            let o = reference::replay(&mut stack, recording);
            (seen.answer, seen.depth) = (o.report.into(), o.depth);
            (seen.word, seen.byte) = (o.count, o.field_number());
        }
        Call::LeadingZeros(t) => seen.answer = reference::leading_zeros(*t).into(),
    }
    seen.stack = stack;
    seen
}

const BESIDE: [u8; 16] = [0xB5; 16];

/// With `guarded` the stack stands between marked bytes, which show a write outside it.
/// Otherwise it is an allocation of its own, where valgrind shows a read outside it too.
pub fn native(given: &Given, guarded: bool) -> Seen {
    let mut seen = Seen::before(given);
    if guarded {
        let mut lent = [&BESIDE, given.stack.as_slice(), &BESIDE].concat();
        let end = 16 + given.stack.len();
        call(given, &mut lent[16..end], &mut seen);
        seen.beside_untouched = lent[..16] == BESIDE && lent[end..] == BESIDE;
        seen.stack = lent[16..end].to_vec();
    } else {
        let mut lent = given.stack.clone().into_boxed_slice();
        call(given, &mut lent, &mut seen);
        seen.stack = lent.into_vec();
    }
    seen
}

fn call(given: &Given, stack: &mut [u8], seen: &mut Seen) {
    seen.answer = match &given.call {
        Call::Operate(literal) => native::operate(stack, &mut seen.depth, *literal).into(),
        Call::Push(number) => native::push(stack, &mut seen.depth, number).into(),
        Call::Run(literals) => native::run(stack, &mut seen.depth, literals, &mut seen.word).into(),
        Call::OperateIn(edition, literal) => {
            native::operate_in(*edition, stack, &mut seen.depth, *literal).into()
        }
        Call::RunIn(edition, literals) => {
            let (depth, position) = (&mut seen.depth, &mut seen.word);
            native::run_in(*edition, stack, depth, literals, position).into()
        }
        Call::View => native::view(stack, given.depth, &mut seen.word),
        Call::Cell(report) => {
            let mut value = f64::from_bits(given.old_bits);
            let kind = native::cell(*report, stack, given.depth, &mut seen.byte, &mut value);
            seen.bits = value.to_bits();
            kind.into()
        }
        Call::Replay(recording) => {
            // Lent from a copy of its own length, which is then looked at.
            let lent = recording.clone();
            let (count, field, depth) = (&mut seen.word, &mut seen.byte, &mut seen.depth);
            let answer = native::replay(stack, black_box(&lent), count, field, depth);
            seen.read_untouched = *black_box(&lent) == *recording;
            answer.into()
        }
        Call::LeadingZeros(t) => native::leading_zeros(*t).into(),
    };
}

impl fmt::Display for Seen {
    fn fmt(&self, f: &mut fmt::Formatter) -> fmt::Result {
        writeln!(
            f,
            "answer {}, depth {}, position, start or count {}, named report or field {}, double {:016X}",
            self.answer, self.depth, self.word, self.byte, self.bits
        )?;
        write!(f, "stack {}", counted(&self.stack))?;
        if !self.beside_untouched {
            write!(f, "\nbytes beside the stack were written")?;
        }
        if !self.read_untouched {
            write!(f, "\nbytes of the recording were written")?;
        }
        Ok(())
    }
}
