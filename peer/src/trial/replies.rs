//! Built replies of one code, or of one identity.

use super::states::{ASYNC, FAILURES_AT, LINK_AT, SYNC};

/// How an exchange went with check 1.
#[derive(Clone, Copy, Debug, PartialEq, Eq)]
pub enum Cycle {
    Passed,
    Tolerated,
    Lost,
}

impl Cycle {
    /// By the states before and after it: no command goes from link 3 to 2, and none counts up.
    pub fn of(before: &[u8], after: &[u8]) -> Cycle {
        if before[LINK_AT] == SYNC && after[LINK_AT] == ASYNC {
            Cycle::Lost
        } else if after[FAILURES_AT] > before[FAILURES_AT] {
            Cycle::Tolerated
        } else {
            Cycle::Passed
        }
    }
}

/// How often each outcome was given.
#[derive(Clone, Copy, Default)]
pub struct Replies {
    /// Accepted, by the link before.
    pub accepted: [u64; 4],
    pub alarms: [u64; 16],
    pub lost_cycles: u64,
    pub tolerated: u64,
}

impl Replies {
    pub fn add(&mut self, before: u8, alarm: usize, cycle: Cycle) {
        match cycle {
            Cycle::Lost => self.lost_cycles += 1,
            Cycle::Tolerated => self.tolerated += 1,
            Cycle::Passed if alarm == 0 => self.accepted[usize::from(before)] += 1,
            Cycle::Passed => self.alarms[alarm] += 1,
        }
    }

    /// Adds the counts of another code.
    pub fn add_all(&mut self, other: &Replies) {
        for (sum, count) in self.accepted.iter_mut().zip(other.accepted) {
            *sum += count;
        }
        for (sum, count) in self.alarms.iter_mut().zip(other.alarms) {
            *sum += count;
        }
        self.lost_cycles += other.lost_cycles;
        self.tolerated += other.tolerated;
    }

    /// What of these links and alarms, of a lost and of a tolerated cycle, has not been given yet.
    pub fn gaps(&self, name: &str, links: &[u8], alarms: &[usize]) -> Vec<String> {
        let mut gaps = Vec::new();
        for &link in links {
            if self.accepted[usize::from(link)] == 0 {
                gaps.push(format!("{name} accepted in link {link}"));
            }
        }
        for &alarm in alarms {
            if self.alarms[alarm] == 0 {
                gaps.push(format!("{name} with alarm {alarm}"));
            }
        }
        if self.lost_cycles == 0 {
            gaps.push(format!("{name} in a lost cycle"));
        }
        if self.tolerated == 0 {
            gaps.push(format!("{name} in a tolerated cycle"));
        }
        gaps
    }
}

#[cfg(test)]
mod tests {
    use super::*;
    use crate::trial::states::{counting_state, failing_state, plain_state, DISCONNECTED};

    #[test]
    fn states_tell_how_the_cycle_went() {
        let before = failing_state(16, 3, 4, 1);
        for (after, cycle) in [
            (plain_state(16, ASYNC), Cycle::Lost),
            (failing_state(16, 9, 5, 2), Cycle::Tolerated),
            (counting_state(16, 4, 5), Cycle::Passed),
            (plain_state(16, DISCONNECTED), Cycle::Passed),
        ] {
            assert_eq!(Cycle::of(&before, &after), cycle);
        }
        let state = plain_state(16, ASYNC);
        assert_eq!(Cycle::of(&state, &state), Cycle::Passed);
    }
}
