//! Counts of commands of one PDU type under the releases of request 13.

use super::call::Inputs;
use super::named::{data, fields, first_set};
use super::releases::release_of;
use super::replies::Cycle;
use super::typed::codes_of;
use super::wire::Wire;
use std::collections::BTreeMap;
use std::fmt;

const ALARM_DATA: u8 = 9;
const ALARM_RIGHTS: u8 = 10;

/// What became of a command beside a release record.
#[derive(Clone, Copy, Debug, PartialEq, Eq, PartialOrd, Ord)]
enum Fate {
    /// By release 1, though a reserved octet was set.
    Ignored,
    /// By release 2.
    Accepted,
    /// For a reserved octet of the head or of a gap, which stands at one place wherever it is.
    At(usize),
    /// For one behind fields and data, which is not the command's last.
    Behind,
    /// For the last that can be reserved.
    Last,
    /// For a field, though a reserved octet was set as well.
    FieldFirst,
    /// For a right, as no reserved octet was set.
    Right,
}

/// Commands by code and what became of them.
pub struct Released {
    wire: &'static Wire,
    counts: BTreeMap<(u8, Fate), u64>,
}

/// The last octet that is reserved unless data reaches it.
fn last_octet(wire: &Wire, pdu_length: usize) -> usize {
    pdu_length - if wire.wdt == 1 { 1 } else { 2 }
}

/// The octets before the end of fields and data that a code has reserved.
fn gaps_of(wire: &Wire, code: u8) -> Vec<usize> {
    let mut octets = vec![2, 3];
    match (code, wire.has_memory) {
        (_, false) => octets.insert(0, 1),
        (0x01 | 0x02, true) => octets.push(7),
        (0x1D | 0x1E, true) => octets.push(4),
        _ => (),
    }
    octets
}

/// What of these a code can meet: those without fields fail at none, and those without a span for no right.
fn fates_of(wire: &Wire, code: u8) -> Vec<Fate> {
    let mut fates = vec![Fate::Ignored, Fate::Accepted, Fate::Behind, Fate::Last];
    fates.extend(gaps_of(wire, code).into_iter().map(Fate::At));
    if !fields(wire, code).is_empty() {
        fates.push(Fate::FieldFirst);
    }
    if [0x01, 0x02, 0x1D, 0x1E].contains(&code) {
        fates.push(Fate::Right);
    }
    fates
}

/// Where a refused command has this reserved octet.
fn part_of(wire: &Wire, command: &[u8], place: usize) -> Fate {
    if place == last_octet(wire, command.len()) {
        Fate::Last
    } else if place >= data(wire, command).end && !gaps_of(wire, command[0]).contains(&place) {
        Fate::Behind
    } else {
        Fate::At(place)
    }
}

fn words(fate: Fate) -> String {
    match fate {
        Fate::Ignored => String::from("accepted by release 1 beside a reserved octet"),
        Fate::Accepted => String::from("accepted by release 2"),
        Fate::At(place) => format!("refused for the reserved octet {place}"),
        Fate::Behind => String::from("refused for a reserved octet behind what it names"),
        Fate::Last => String::from("refused for the last octet"),
        Fate::FieldFirst => String::from("refused for a field beside a reserved octet"),
        Fate::Right => String::from("with alarm 10 in release 2"),
    }
}

impl Released {
    pub fn new(wire: &'static Wire) -> Released {
        Released {
            wire,
            counts: BTreeMap::new(),
        }
    }

    fn fate(&self, alarm: u8, place: u64, inputs: &Inputs) -> Option<Fate> {
        let release = release_of(&inputs.sheet)?;
        let set = first_set(self.wire, &inputs.command);
        match (release, alarm) {
            (1, 0) => set.map(|_| Fate::Ignored),
            (2, 0) => Some(Fate::Accepted),
            (2, ALARM_RIGHTS) => Some(Fate::Right),
            // No field begins at a reserved octet.
            (2, ALARM_DATA) if set.map(|at| at as u64) == Some(place) => {
                Some(part_of(self.wire, &inputs.command, place as usize))
            }
            (2, ALARM_DATA) => set.map(|_| Fate::FieldFirst),
            _ => None,
        }
    }

    /// Counts a built reply; a failed cycle did not look at the command.
    pub fn add(&mut self, cycle: Cycle, alarm: u8, place: u64, inputs: &Inputs) {
        if cycle != Cycle::Passed {
            return;
        }
        if let Some(fate) = self.fate(alarm, place, inputs) {
            let key = (inputs.command[0], fate);
            *self.counts.entry(key).or_insert(0) += 1;
        }
    }

    fn rows(&self) -> Vec<(String, u64)> {
        let mut rows = Vec::new();
        for (code, name) in codes_of(self.wire) {
            for fate in fates_of(self.wire, code) {
                let count = self.counts.get(&(code, fate)).copied();
                rows.push((format!("{name} {}", words(fate)), count.unwrap_or(0)));
            }
        }
        rows
    }

    /// The rows that no command has given yet.
    pub fn gaps(&self) -> Vec<String> {
        let rows = self.rows().into_iter();
        rows.filter(|row| row.1 == 0).map(|row| row.0).collect()
    }
}

impl fmt::Display for Released {
    fn fmt(&self, formatter: &mut fmt::Formatter) -> fmt::Result {
        for (row, count) in self.rows() {
            writeln!(formatter, "{row}: {count}")?;
        }
        Ok(())
    }
}

#[cfg(test)]
mod tests {
    use super::*;
    use crate::trial::plan::Plan;
    use crate::trial::wire::{ENHANCED, SHORT};

    fn inputs(plan: Plan, body: &[(usize, u8)]) -> Inputs {
        let mut command = vec![0; usize::from(plan.pdu_length)];
        for &(at, octet) in body {
            command[at] = octet;
        }
        Inputs {
            sheet: plan.octets(),
            command,
            ..Inputs::default()
        }
    }

    #[test]
    fn each_row_of_a_parameter_is_missed_until_it_is_given() {
        let mut released = Released::new(&ENHANCED);
        let of_code = |released: &Released| {
            let gaps = released.gaps().into_iter();
            gaps.filter(|gap| gap.starts_with("PRM_WR")).count()
        };
        assert_eq!(of_code(&released), 9);
        let mut missing = 9;
        let (code, size) = ((0, 0x02), (6, 5));
        for (release, alarm, place, set) in [
            (1, 0, 0, 15),
            (2, 0, 0, 8),
            (2, 9, 2, 2),
            (2, 9, 3, 3),
            (2, 9, 7, 7),
            (2, 9, 13, 13),
            (2, 9, 15, 15),
            (2, 9, 6, 3),
            (2, 10, 4, 12),
        ] {
            let plan = Plan {
                release: Some(release),
                ..Plan::bare(16)
            };
            let inputs = inputs(plan, &[code, size, (set, 1)]);
            released.add(Cycle::Lost, alarm, place, &inputs);
            released.add(Cycle::Tolerated, alarm, place, &inputs);
            assert_eq!(of_code(&released), missing);
            released.add(Cycle::Passed, alarm, place, &inputs);
            missing -= 1;
            assert_eq!(of_code(&released), missing);
        }
    }

    #[test]
    fn without_a_release_nothing_is_counted() {
        for (wire, plan) in [
            (&ENHANCED, Plan::bare(16)),
            (&SHORT, Plan::bare(16).in_short()),
        ] {
            let mut released = Released::new(wire);
            let rows = released.gaps().len();
            for alarm in [0, 9, 10, 12] {
                released.add(Cycle::Passed, alarm, 3, &inputs(plan.clone(), &[(3, 1)]));
            }
            assert_eq!(released.gaps().len(), rows);
        }
    }
}
