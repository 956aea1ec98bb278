//! One call with all it is given, and what the reference answers.

use crate::{reference, Cell};

#[derive(Clone, Debug, PartialEq, Eq)]
pub enum Call {
    Operate(u8),
    Push(Vec<u8>),
    Run(Vec<u8>),
    /// In the edition of a number, which stands first.
    OperateIn(u8, u8),
    RunIn(u8, Vec<u8>),
    /// Nothing is done: the view and the cell of the stack as it is, with this report.
    Cell(u8),
    /// Of a recording. It starts at depth 0, whatever the case's depth is.
    Replay(Vec<u8>),
    /// Of a number. The stack is not lent: it is seen as it is.
    LeadingZeros(u32),
}

#[derive(Clone, Debug, PartialEq, Eq)]
pub struct Case {
    pub call: Call,
    pub depth: usize,
    pub stack: Vec<u8>,
}

/// Everything that can be seen after a call. A run has a position; a replay has its count there,
/// and the number of a field. The leading zeros of a number stand there too.
#[derive(Clone, Debug, PartialEq, Eq)]
pub struct After {
    pub field: Option<u8>,
    pub report: u8,
    pub position: Option<usize>,
    pub depth: usize,
    pub stack: Vec<u8>,
    pub view: Option<usize>,
    pub cell: Cell,
}

impl Case {
    pub fn answer(&self) -> After {
        let mut stack = self.stack.clone();
        let mut field = None;
        let (report, position, depth) = match &self.call {
            Call::Operate(literal) => {
                let o = reference::operate(&mut stack, self.depth, *literal);
                (o.report, None, o.depth)
            }
            Call::Push(number) => {
                let o = reference::push(&mut stack, self.depth, number);
                (o.report, None, o.depth)
            }
            Call::Run(literals) => {
                let o = reference::run(&mut stack, self.depth, literals);
                (o.report, Some(o.position), o.depth)
            }
            Call::OperateIn(edition, literal) => {
                let o = reference::operate_in(*edition, &mut stack, self.depth, *literal);
                (o.report, None, o.depth)
            }
            Call::RunIn(edition, literals) => {
                let o = reference::run_in(*edition, &mut stack, self.depth, literals);
                (o.report, Some(o.position), o.depth)
            }
            Call::Cell(report) => (*report, None, self.depth),
            Call::Replay(recording) => {
                let o = reference::replay(&mut stack, recording);
                field = Some(o.field_number());
                (o.report, Some(o.count), o.depth)
            }
            Call::LeadingZeros(t) => {
                let zeros = reference::leading_zeros(*t);
                (reference::DONE, Some(zeros.into()), self.depth)
            }
        };
        let view = reference::view(&stack, depth);
        let cell = reference::cell(report, &stack, depth);
        After {
            field,
            report,
            position,
            depth,
            stack,
            view,
            cell,
        }
    }
}
