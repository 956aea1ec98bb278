//! Valgrind's client requests, which count between two points of a run under callgrind and
//! do nothing outside it, and the reading of what callgrind then wrote.

use std::arch::asm;
use std::collections::HashMap;
use std::ffi::CStr;
use std::path::Path;

/// Callgrind's requests are numbered from its letters, 'C' and 'T'.
const BASE: u64 = 0x4354_0000;
const ZERO_STATS: u64 = BASE + 1;
const DUMP_STATS_AT: u64 = BASE + 3;

fn request(code: u64, argument: u64) {
    let words = [code, argument, 0, 0, 0, 0];
    // SAFETY: rotations that add up to whole turns and an exchange of a register with
    // itself change nothing; valgrind knows the sequence and reads `words`.
    unsafe {
        asm!(
            "rol rdi, 3",
            "rol rdi, 13",
            "rol rdi, 61",
            "rol rdi, 51",
            "xchg rbx, rbx",
            inout("rdx") 0u64 => _,
            in("rax") words.as_ptr(),
            options(nostack)
        );
    }
}

/// From here on.
#[inline(never)]
pub fn zero() {
    request(ZERO_STATS, 0);
}

/// Up to here, under this name, which is made before: making it would be counted too.
#[inline(never)]
pub fn dump(name: &CStr) {
    request(DUMP_STATS_AT, name.as_ptr() as u64);
}

/// The instructions of each named dump in the folder.
pub fn read(folder: &Path) -> std::io::Result<HashMap<String, f64>> {
    let mut counts = HashMap::new();
    for entry in std::fs::read_dir(folder)? {
        let text = std::fs::read_to_string(entry?.path())?;
        let after = |start: &str| {
            let line = text.lines().find_map(|line| line.strip_prefix(start));
            line.map(str::trim).map(str::to_string)
        };
        let name = after("desc: Trigger: Client Request:");
        let total = after("totals:").and_then(|total| total.parse().ok());
        if let (Some(name), Some(total)) = (name, total) {
            counts.insert(name, total);
        }
    }
    Ok(counts)
}
