//! Counts of what the calls have reached, so that coverage can be seen.

use super::call::{Call, Inputs};
use super::differences::Differences;
use super::links::Links;
use super::releases::Releases;
use super::replies::{Cycle, Replies};
use super::states::LINK_AT;
use super::turned::Turned;
use super::typed::{write_row, Typed, ALARMS};
use super::wire::{Wire, ENHANCED, SHORT};
use std::collections::BTreeMap;
use std::fmt;

/// All calls so far.
pub struct Tally {
    enhanced: Typed,
    short: Typed,
    /// By bits 6 and 7 of reply octet 2, in the type that echoes them.
    identities: [Replies; 4],
    calls: BTreeMap<Call, u64>,
    numbers: BTreeMap<(Call, u32), u64>,
    links: Links,
    releases: Releases,
    turned: Turned,
    differences: Differences,
}

impl Default for Tally {
    fn default() -> Tally {
        Tally {
            enhanced: Typed::new(&ENHANCED),
            short: Typed::new(&SHORT),
            identities: [Replies::default(); 4],
            calls: BTreeMap::new(),
            numbers: BTreeMap::new(),
            links: Links::default(),
            releases: Releases::default(),
            turned: Turned::default(),
            differences: Differences::default(),
        }
    }
}

impl Tally {
    /// Counts a call on which both engines agreed.
    pub fn add(&mut self, call: Call, answer: u64, before: &[u8], after: &Inputs, reply: &[u8]) {
        self.count(call, answer);
        match call {
            Call::Exchange if answer as u32 == 0 => {
                self.add_reply(answer >> 32, before, after, reply);
            }
            Call::Turn => self.turned.add(answer as u32, before, after),
            Call::Sheet => {
                self.links.add(&after.sheet, answer);
                self.releases.add(&after.sheet, answer);
            }
            _ => (),
        }
    }

    /// Counts a list that both engines left alike.
    pub fn add_difference(&mut self, answer: u64, inputs: &Inputs, list: &[u8]) {
        self.count(Call::Difference, answer);
        self.differences.add(answer, inputs, list);
    }

    fn count(&mut self, call: Call, answer: u64) {
        *self.calls.entry(call).or_insert(0) += 1;
        if call != Call::Lengths {
            *self.numbers.entry((call, answer as u32)).or_insert(0) += 1;
        }
    }

    fn add_reply(&mut self, place: u64, before: &[u8], after: &Inputs, reply: &[u8]) {
        let wire = Wire::of_sheet(&after.sheet);
        if wire == &SHORT {
            return self.short.add(place, before, after, reply);
        }
        self.enhanced.add(place, before, after, reply);
        let (alarm, link) = (wire.alarm(reply), before[LINK_AT]);
        let cycle = Cycle::of(before, &after.state);
        self.identities[usize::from(reply[2] >> 6)].add(link, usize::from(alarm), cycle);
    }

    /// Calls of that kind.
    pub fn calls(&self, call: Call) -> u64 {
        self.calls.get(&call).copied().unwrap_or(0)
    }

    /// Calls of all kinds.
    pub fn all_calls(&self) -> u64 {
        self.calls.values().sum()
    }

    /// Refused commands of the enhanced type of that code with that alarm and place.
    pub fn refused_at(&self, code: u8, alarm: u8, place: u64) -> u64 {
        self.enhanced.refused_at(code, alarm, place)
    }

    /// Calls with that answer number.
    fn numbered(&self, call: Call, number: u32) -> u64 {
        self.numbers.get(&(call, number)).copied().unwrap_or(0)
    }

    /// What the rules can give but no call has given yet.
    pub fn gaps(&self) -> Vec<String> {
        let mut gaps = self.enhanced.gaps();
        gaps.extend(self.short.gaps());
        for (identity, replies) in self.identities.iter().enumerate() {
            gaps.extend(replies.gaps(&identity_name(identity), &[1, 2, 3], &ALARMS));
        }
        gaps.extend(self.links.gaps());
        gaps.extend(self.releases.gaps());
        gaps.extend(self.turned.gaps());
        gaps.extend(self.differences.gaps());
        gaps.extend(self.number_gaps());
        gaps
    }

    fn number_gaps(&self) -> Vec<String> {
        let sheet = [0, 11, 12, 13, 14, 15, 16, 17];
        let mut wanted: Vec<(Call, u32)> = Vec::new();
        for call in [
            Call::Sheet,
            Call::Reset,
            Call::Enable,
            Call::Turn,
            Call::Exchange,
            Call::Replay,
            Call::Difference,
        ] {
            wanted.extend(sheet.map(|number| (call, number)));
        }
        wanted.extend([Call::Reset, Call::Enable, Call::Turn].map(|call| (call, 1)));
        wanted.push((Call::Enable, 6));
        wanted.extend([1, 2, 3, 4, 5].map(|number| (Call::Exchange, number)));
        wanted.extend([1, 2, 5, 31, 32, 33, 34].map(|number| (Call::Replay, number)));
        wanted.extend((21..=28).map(|number| (Call::Difference, number)));
        wanted
            .into_iter()
            .filter(|&(call, number)| self.numbered(call, number) == 0)
            .map(|(call, number)| format!("{call:?} with number {number}"))
            .collect()
    }
}

fn identity_name(identity: usize) -> String {
    format!("identity {identity}")
}

impl fmt::Display for Tally {
    fn fmt(&self, formatter: &mut fmt::Formatter) -> fmt::Result {
        write!(formatter, "{}", self.enhanced)?;
        for (identity, replies) in self.identities.iter().enumerate() {
            write_row(formatter, &identity_name(identity), replies)?;
        }
        write!(formatter, "{}{}", self.short, self.links)?;
        write!(formatter, "{}{}", self.releases, self.turned)?;
        write!(formatter, "{}", self.differences)?;
        for (&(call, number), count) in &self.numbers {
            writeln!(formatter, "{call:?} with number {number}: {count}")?;
        }
        Ok(())
    }
}
