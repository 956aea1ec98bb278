//! How many cases of each kind and in each edition there were, how often each report was given, and
//! how the replays came out.

use super::given::Call;
use super::seen::Seen;
use crate::reference::Edition;
use std::collections::BTreeMap;
use std::fmt;

#[derive(Default)]
pub struct Tally {
    kinds: [u64; 7],
    /// Of operate and run: by the old calls, in the shipped edition, in the mended one, and in none.
    editions: [u64; 4],
    /// Of operate, push and run.
    reports: BTreeMap<usize, u64>,
    /// By the field that differs; 0 is that all agree.
    replays: [u64; 4],
    refused: u64,
}

impl Tally {
    pub fn count(&mut self, call: &Call, expected: &Seen) {
        let kind = match call {
            Call::Operate(_) | Call::OperateIn(..) => 0,
            Call::Push(_) => 1,
            Call::Run(_) | Call::RunIn(..) => 2,
            Call::View => 3,
            Call::Cell(_) => 4,
            Call::Replay(_) => 5,
            Call::LeadingZeros(_) => 6,
        };
        self.kinds[kind] += 1;
        match call {
            Call::Operate(_) | Call::Run(_) => self.editions[0] += 1,
            Call::OperateIn(edition, _) | Call::RunIn(edition, _) => {
                let place = match Edition::numbered(*edition) {
                    Some(Edition::Shipped) => 1,
                    Some(Edition::Mended) => 2,
                    None => 3,
                };
                self.editions[place] += 1;
            }
            _ => {}
        }
        match kind {
            0..=2 => *self.reports.entry(expected.answer).or_default() += 1,
            5 if expected.answer == 0 => self.replays[usize::from(expected.byte)] += 1,
            5 => self.refused += 1,
            _ => {}
        }
    }
}

impl fmt::Display for Tally {
    fn fmt(&self, f: &mut fmt::Formatter) -> fmt::Result {
        let [operate, push, run, view, cell, replay, zeros] = self.kinds;
        write!(
            f,
            "operate {operate}, push {push}, run {run}, view {view}, cell {cell}, leading zeros {zeros}; report"
        )?;
        for (report, count) in &self.reports {
            write!(f, " {report}: {count}")?;
        }
        let [old, shipped, mended, none] = self.editions;
        write!(
            f,
            "\nedition unnamed {old}, shipped {shipped}, mended {mended}, none {none}"
        )?;
        let [agree, report, depth, top] = self.replays;
        write!(
            f,
            "\nreplay {replay}: agree {agree}, differ in report {report}, depth {depth}, top {top}, refused {}",
            self.refused
        )
    }
}
