//! The C interface of the archive under test (include/trenailer.h), behind safe functions.
//! Nothing checks these declarations against the archive but the comparison itself.

extern "C" {
    pub fn trenailer_operate(
        stack: *mut u8,
        stack_len: usize,
        depth: *mut usize,
        literal: u8,
    ) -> u8;
    pub fn trenailer_operate_in(
        edition: u8,
        stack: *mut u8,
        stack_len: usize,
        depth: *mut usize,
        literal: u8,
    ) -> u8;
    pub fn trenailer_push(
        stack: *mut u8,
        stack_len: usize,
        depth: *mut usize,
        number: *const u8,
        number_len: usize,
    ) -> u8;
    pub fn trenailer_run(
        stack: *mut u8,
        stack_len: usize,
        depth: *mut usize,
        literals: *const u8,
        literals_len: usize,
        position: *mut usize,
    ) -> u8;
    pub fn trenailer_run_in(
        edition: u8,
        stack: *mut u8,
        stack_len: usize,
        depth: *mut usize,
        literals: *const u8,
        literals_len: usize,
        position: *mut usize,
    ) -> u8;
    pub fn trenailer_view(
        stack: *const u8,
        stack_len: usize,
        depth: usize,
        start: *mut usize,
    ) -> usize;
    pub fn trenailer_cell(
        report: u8,
        stack: *const u8,
        stack_len: usize,
        depth: usize,
        refused: *mut u8,
        value: *mut f64,
    ) -> u8;
    pub fn trenailer_replay(
        stack: *mut u8,
        stack_len: usize,
        recording: *const u8,
        recording_len: usize,
        count: *mut usize,
        field: *mut u8,
        depth: *mut usize,
    ) -> u8;
    pub fn trenailer_leading_zeros(t: u32) -> u8;
}

/// The kinds that `cell` answers.
pub const REFUSED: u8 = 0;
pub const BLANK: u8 = 1;
pub const ODD: u8 = 2;
pub const VALUE: u8 = 3;

/// The report; `depth` is written as the call writes it.
pub fn operate(stack: &mut [u8], depth: &mut usize, literal: u8) -> u8 {
    // SAFETY: the pointers are lent for the call, with their length, and do not overlap.
    unsafe { trenailer_operate(stack.as_mut_ptr(), stack.len(), depth, literal) }
}

pub fn push(stack: &mut [u8], depth: &mut usize, number: &[u8]) -> u8 {
    // SAFETY: as for operate.
    unsafe {
        trenailer_push(
            stack.as_mut_ptr(),
            stack.len(),
            depth,
            number.as_ptr(),
            number.len(),
        )
    }
}

pub fn run(stack: &mut [u8], depth: &mut usize, literals: &[u8], position: &mut usize) -> u8 {
    // SAFETY: as for operate.
    unsafe {
        trenailer_run(
            stack.as_mut_ptr(),
            stack.len(),
            depth,
            literals.as_ptr(),
            literals.len(),
            position,
        )
    }
}

/// In the edition of a number.
pub fn operate_in(edition: u8, stack: &mut [u8], depth: &mut usize, literal: u8) -> u8 {
    // SAFETY: as for operate.
    unsafe { trenailer_operate_in(edition, stack.as_mut_ptr(), stack.len(), depth, literal) }
}

pub fn run_in(
    edition: u8,
    stack: &mut [u8],
    depth: &mut usize,
    literals: &[u8],
    position: &mut usize,
) -> u8 {
    // SAFETY: as for operate.
    unsafe {
        trenailer_run_in(
            edition,
            stack.as_mut_ptr(),
            stack.len(),
            depth,
            literals.as_ptr(),
            literals.len(),
            position,
        )
    }
}

/// 5 or 0; `start` is written where it is 5.
pub fn view(stack: &[u8], depth: usize, start: &mut usize) -> usize {
    // SAFETY: as for operate.
    unsafe { trenailer_view(stack.as_ptr(), stack.len(), depth, start) }
}

/// The kind; what a kind does not name stays as it was.
pub fn cell(report: u8, stack: &[u8], depth: usize, refused: &mut u8, value: &mut f64) -> u8 {
    // SAFETY: as for operate.
    unsafe { trenailer_cell(report, stack.as_ptr(), stack.len(), depth, refused, value) }
}

/// 0, 1 or 8; the three targets are always written.
pub fn replay(
    stack: &mut [u8],
    recording: &[u8],
    count: &mut usize,
    field: &mut u8,
    depth: &mut usize,
) -> u8 {
    // SAFETY: as for operate.
    unsafe {
        trenailer_replay(
            stack.as_mut_ptr(),
            stack.len(),
            recording.as_ptr(),
            recording.len(),
            count,
            field,
            depth,
        )
    }
}

pub fn leading_zeros(t: u32) -> u8 {
    // SAFETY: nothing is lent.
    unsafe { trenailer_leading_zeros(t) }
}
