//! Counts of failures of check 1: by what the WDT had wrong (request 5), and of
//! how many in a row the sheet allowed (request 9).

use super::call::Inputs;
use super::replies::Cycle;
use super::states::{FAILURES_AT, LAST_MN_AT, RSN_AT};
use super::wire::Wire;
use crate::engine::sheet::Sheet;
use std::collections::BTreeMap;
use std::fmt;

const CAUSES: [&str; 3] = ["MN alone", "SN alone", "MN and SN"];
const TOLERANCES: [Option<u8>; 5] = [None, Some(0), Some(1), Some(2), Some(3)];

/// What the sheet says, and the failures before this exchange.
type Bound = (Option<u8>, u8);

/// Failures, and exchanges that passed after some.
#[derive(Default)]
pub struct Failures {
    lost_by: [u64; 3],
    tolerated_by: [u64; 3],
    lost: BTreeMap<Bound, u64>,
    tolerated: BTreeMap<Bound, u64>,
    /// Passed after so many failures, and whether the command was accepted.
    passed: BTreeMap<(u8, bool), u64>,
}

/// What this WDT has wrong in this state; no rule fails one that has nothing wrong.
fn cause(before: &[u8], wdt: u8) -> Option<usize> {
    let mn_follows = wdt & 15 == (before[LAST_MN_AT] + 1) & 15;
    let sn_is_rsn = wdt >> 4 == before[RSN_AT];
    match (mn_follows, sn_is_rsn) {
        (false, true) => Some(0),
        (true, false) => Some(1),
        (false, false) => Some(2),
        (true, true) => None,
    }
}

/// All bounds at which a failure is tolerated, or at which it is not.
fn bounds(tolerated: bool) -> Vec<Bound> {
    let mut bounds = Vec::new();
    for tolerance in TOLERANCES {
        let allowed = tolerance.unwrap_or(0);
        for failures in 0..=allowed {
            if (failures < allowed) == tolerated {
                bounds.push((tolerance, failures));
            }
        }
    }
    bounds
}

fn count<Key: Ord>(counts: &BTreeMap<Key, u64>, key: &Key) -> u64 {
    counts.get(key).copied().unwrap_or(0)
}

fn words(bound: Bound) -> String {
    match bound {
        (None, _) => String::from("without a tolerance"),
        (Some(allowed), failures) => format!("of {allowed} allowed after {failures}"),
    }
}

impl Failures {
    /// Counts an exchange from this state.
    pub fn add(&mut self, cycle: Cycle, before: &[u8], inputs: &Inputs, accepted: bool) {
        let (causes, bounds) = match cycle {
            Cycle::Lost => (&mut self.lost_by, &mut self.lost),
            Cycle::Tolerated => (&mut self.tolerated_by, &mut self.tolerated),
            Cycle::Passed => {
                let key = (before[FAILURES_AT], accepted);
                *self.passed.entry(key).or_insert(0) += 1;
                return;
            }
        };
        let wdt = inputs.command[Wire::of_sheet(&inputs.sheet).wdt];
        if let Some(cause) = cause(before, wdt) {
            causes[cause] += 1;
        }
        if let Ok(sheet) = Sheet::read(&inputs.sheet) {
            let bound = (sheet.tolerance_record(), before[FAILURES_AT]);
            *bounds.entry(bound).or_insert(0) += 1;
        }
    }

    fn rows(&self) -> Vec<(String, u64)> {
        let mut rows = Vec::new();
        for (cause, name) in CAUSES.iter().enumerate() {
            rows.push((format!("a cycle lost by {name}"), self.lost_by[cause]));
            rows.push((
                format!("a failure tolerated by {name}"),
                self.tolerated_by[cause],
            ));
        }
        for bound in bounds(true) {
            let row = format!("a failure tolerated, {}", words(bound));
            rows.push((row, count(&self.tolerated, &bound)));
        }
        for bound in bounds(false) {
            let row = format!("a failure that leaves link 3, {}", words(bound));
            rows.push((row, count(&self.lost, &bound)));
        }
        for failures in 1..=3 {
            for (accepted, name) in [(true, "accepted"), (false, "refused")] {
                let row = format!("a command {name} after {failures} failures");
                rows.push((row, count(&self.passed, &(failures, accepted))));
            }
        }
        rows
    }

    /// The rows that no exchange has given yet.
    pub fn gaps(&self) -> Vec<String> {
        let rows = self.rows().into_iter();
        rows.filter(|row| row.1 == 0).map(|row| row.0).collect()
    }
}

impl fmt::Display for Failures {
    fn fmt(&self, formatter: &mut fmt::Formatter) -> fmt::Result {
        for (row, count) in self.rows() {
            writeln!(formatter, "{row}: {count}")?;
        }
        Ok(())
    }
}

#[cfg(test)]
mod tests {
    use super::*;
    use crate::trial::samples::tolerant;
    use crate::trial::states::failing_state;

    fn add(failures: &mut Failures, cycle: Cycle, bound: Bound, wdt: u8) {
        let inputs = Inputs {
            sheet: tolerant(16, bound.0).octets(),
            command: vec![0, wdt],
            ..Inputs::default()
        };
        failures.add(cycle, &failing_state(16, 15, 6, bound.1), &inputs, true);
    }

    #[test]
    fn each_cause_is_missed_until_a_cycle_failed_by_it() {
        let mut failures = Failures::default();
        let missed = |failures: &Failures| {
            let gaps = failures.gaps();
            let by = gaps.iter().filter(|gap| gap.contains(" by "));
            by.count()
        };
        add(&mut failures, Cycle::Lost, (None, 0), 0x60);
        assert_eq!(missed(&failures), 6);
        for (wdt, cause) in [(0x6F, 0), (0x50, 1), (0x01, 2)] {
            add(&mut failures, Cycle::Lost, (None, 0), wdt);
            add(&mut failures, Cycle::Tolerated, (Some(1), 0), wdt);
            assert_eq!(
                (failures.lost_by[cause], failures.tolerated_by[cause]),
                (1, 1)
            );
        }
        assert_eq!(missed(&failures), 0);
    }

    #[test]
    fn each_bound_is_missed_until_a_cycle_failed_at_it() {
        let mut failures = Failures::default();
        let rows = failures.gaps().len();
        assert_eq!(rows, 2 * 3 + (1 + 2 + 3) + 5 + 2 * 3);
        for bound in bounds(true) {
            add(&mut failures, Cycle::Tolerated, bound, 0x60);
        }
        assert_eq!(failures.gaps().len(), rows - 6);
        for bound in bounds(false) {
            add(&mut failures, Cycle::Lost, bound, 0x60);
        }
        assert_eq!(failures.gaps().len(), rows - 6 - 5);
        for count in 0..=3 {
            add(&mut failures, Cycle::Passed, (Some(3), count), 0x60);
        }
        assert_eq!(failures.gaps().len(), rows - 6 - 5 - 3);
    }
}
