//! Counts of the places that refused commands were told (request 3).

use super::typed::codes_of;
use super::wire::Wire;
use std::collections::BTreeMap;
use std::fmt;

const ALARM_DATA: u8 = 9;
const ALARM_RIGHTS: u8 = 10;

/// Refused commands of one type by code, alarm and place.
pub struct Places {
    wire: &'static Wire,
    counts: BTreeMap<(u8, u8, u64), u64>,
}

/// The places of alarm 9, where a field that failed begins; L 8 and a profile are the enhanced type's.
fn data_places(wire: &Wire, code: u8) -> &'static [u64] {
    match code {
        0x01..=0x03 => &[4, 6],
        0x05 if !wire.has_memory => &[4],
        0x0E if !wire.names_profile => &[4, 5, 6],
        0x05 => &[0, 4],
        0x06 => &[4],
        0x0E => &[4, 5, 6, 7],
        0x1D | 0x1E => &[5, 6, 8],
        _ => &[],
    }
}

/// Whether alarm 10 can be told: the code has a span.
fn has_span(code: u8) -> bool {
    matches!(code, 0x01 | 0x02 | 0x1D | 0x1E)
}

impl Places {
    pub fn new(wire: &'static Wire) -> Places {
        Places {
            wire,
            counts: BTreeMap::new(),
        }
    }

    /// Counts a built reply; an accepted command and a lost cycle have no alarm.
    pub fn add(&mut self, code: u8, alarm: u8, place: u64) {
        if alarm != 0 {
            *self.counts.entry((code, alarm, place)).or_insert(0) += 1;
        }
    }

    /// Refused commands of that code with that alarm and place.
    pub fn count(&self, code: u8, alarm: u8, place: u64) -> u64 {
        let key = (code, alarm, place);
        self.counts.get(&key).copied().unwrap_or(0)
    }

    /// Alarms 10 behind the span's first octet, and the farthest place of one.
    fn later_rights(&self, code: u8) -> (u64, u64) {
        let later = (code, ALARM_RIGHTS, 1)..=(code, ALARM_RIGHTS, u64::MAX);
        let mut all = (0, 0);
        for (&(_, _, place), count) in self.counts.range(later) {
            all = (all.0 + count, place);
        }
        all
    }

    /// The rows of the table of places that no refused command has given yet.
    pub fn gaps(&self) -> Vec<String> {
        let mut gaps = Vec::new();
        for (code, name) in codes_of(self.wire) {
            for &place in data_places(self.wire, code) {
                if self.count(code, ALARM_DATA, place) == 0 {
                    gaps.push(format!("{name} with alarm 9 at place {place}"));
                }
            }
            if has_span(code) && self.count(code, ALARM_RIGHTS, 0) == 0 {
                gaps.push(format!("{name} with alarm 10 at place 0"));
            }
            if has_span(code) && self.later_rights(code).0 == 0 {
                gaps.push(format!("{name} with alarm 10 at a later place"));
            }
        }
        gaps
    }
}

impl fmt::Display for Places {
    fn fmt(&self, formatter: &mut fmt::Formatter) -> fmt::Result {
        for (code, name) in codes_of(self.wire) {
            for &place in data_places(self.wire, code) {
                let count = self.count(code, ALARM_DATA, place);
                writeln!(formatter, "{name} with alarm 9 at place {place}: {count}")?;
            }
            if has_span(code) {
                let first = self.count(code, ALARM_RIGHTS, 0);
                let (later, farthest) = self.later_rights(code);
                writeln!(
                    formatter,
                    "{name} with alarm 10 at place 0: {first}, later, up to {farthest}: {later}"
                )?;
            }
        }
        Ok(())
    }
}

#[cfg(test)]
mod tests {
    use super::*;
    use crate::trial::wire::{ENHANCED, SHORT};

    #[test]
    fn each_row_is_missed_until_it_is_given() {
        assert_eq!(Places::new(&SHORT).gaps().len(), 3 * 2 + 1 + 1 + 3 + 2 * 2);
        let mut places = Places::new(&ENHANCED);
        let rows = places.gaps().len();
        assert_eq!(rows, 3 * 2 + 2 + 1 + 4 + 2 * 3 + 4 * 2);
        // Neither an accepted command nor a place that is no row's counts.
        places.add(0x1D, 0, 5);
        places.add(0x1D, 9, 4);
        places.add(0x1D, 12, 5);
        assert_eq!(places.gaps().len(), rows);
        places.add(0x1D, 9, 5);
        places.add(0x02, 10, 0);
        assert_eq!(places.gaps().len(), rows - 2);
        places.add(0x02, 10, 7);
        places.add(0x02, 10, 55);
        assert_eq!(places.gaps().len(), rows - 3);
        assert_eq!(places.later_rights(0x02), (2, 55));
        assert_eq!(places.later_rights(0x01), (0, 0));
    }
}
