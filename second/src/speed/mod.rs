//! Speed of ours through the C interface beside plain optimised Rust: the same operands,
//! the same loop, the same kind of call. What an empty call costs in that loop is taken off.

pub mod callgrind;
pub mod calls;
pub mod counted;
pub mod operands;
pub mod report;
pub mod rows;
pub mod work;

use calls::{Calls, EMPTY, OURS, PLAIN};
use std::ffi::CString;
use std::time::Instant;
use work::{Area, Work};

pub const SIDES: [(&str, &Calls); 3] = [("ours", &OURS), ("plain", &PLAIN), ("empty", &EMPTY)];

/// How often each side's pass is timed.
const TIMES: usize = 100;

/// What was measured of a piece of work: instructions or nanoseconds an operation.
#[derive(Clone, Copy)]
pub struct Cost {
    pub ours: f64,
    pub plain: f64,
}

impl Cost {
    /// From whole passes over the work on the three sides.
    pub fn net(work: &Work, [ours, plain, empty]: [f64; 3]) -> Cost {
        let operations = work.operations() as f64;
        Cost {
            ours: (ours - empty) / operations,
            plain: (plain - empty) / operations,
        }
    }

    pub fn ratio(self) -> f64 {
        self.ours / self.plain
    }
}

/// Under which callgrind's count of a side is kept.
pub fn dump_name(work: &Work, side: &str) -> String {
    format!("{}/{side}", work.name)
}

/// Under callgrind: counts one pass a side, after one that is not counted.
pub fn count(all: &[Work]) {
    for work in all {
        let mut areas = [Area::default(), Area::default(), Area::default()];
        for (area, (side, calls)) in areas.iter_mut().zip(SIDES) {
            let name = CString::new(dump_name(work, side)).expect("a name has no zero byte");
            work.lay(area);
            work.pass(area, calls);
            work.lay(area);
            callgrind::zero();
            work.pass(area, calls);
            callgrind::dump(&name);
        }
        // Two that do not do the same are not to be compared.
        assert!(areas[0] == areas[1], "{}: the sides differ", work.name);
    }
}

/// Nanoseconds: the sides in turn, many times over, and of each side its quickest pass.
pub fn time(work: &Work) -> Cost {
    let mut quickest = [f64::MAX; 3];
    let mut area = Area::default();
    for _ in 0..TIMES {
        for (quickest, (_, calls)) in quickest.iter_mut().zip(SIDES) {
            work.lay(&mut area);
            let start = Instant::now();
            work.pass(&mut area, calls);
            let passed = start.elapsed().as_nanos() as f64;
            *quickest = quickest.min(passed);
        }
    }
    Cost::net(work, quickest)
}
