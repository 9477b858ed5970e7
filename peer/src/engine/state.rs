//! The state record of eleven octets, and how links begin and end.

use super::sheet::Sheet;

/// The record's length.
pub const LENGTH: usize = 11;
const KIND: u8 = 0x12;
/// The record before request 9 had no count of failures, and is otherwise the same.
const OLD_LENGTH: usize = 10;
const OLD_KIND: u8 = 0x11;
/// The octets that both records have behind their kind.
const SHARED: std::ops::Range<usize> = 1..10;
const FAILURES_AT: usize = 10;

/// What the communication latch holds after a lost cycle.
const LOST_CYCLE: u8 = 12;

/// The four links of the record's octet 1.
#[derive(Clone, Copy, Debug, PartialEq, Eq)]
pub enum Link {
    Disabled,
    Disconnected,
    AsyncConnected,
    SyncConnected,
}

impl Link {
    fn of(octet: u8) -> Option<Link> {
        match octet {
            0 => Some(Link::Disabled),
            1 => Some(Link::Disconnected),
            2 => Some(Link::AsyncConnected),
            3 => Some(Link::SyncConnected),
            _ => None,
        }
    }
}

/// The watchdog's counters; RSN and failures are 0 as long as MN is not known.
#[derive(Clone, Copy, Debug, Default, PartialEq, Eq)]
pub struct Counters {
    pub last_mn: u8,
    pub rsn: u8,
    /// Failures of check 1 in a row that were tolerated (request 9).
    pub failures: u8,
}

/// A valid state record.
#[derive(Clone, Copy, Debug, PartialEq, Eq)]
pub struct State {
    pub link: Link,
    pub pdu_length: u8,
    pub dual: bool,
    pub com_time: u8,
    /// Nothing while MN is not known.
    pub counters: Option<Counters>,
    pub command_latch: u8,
    pub communication_latch: u8,
}

impl State {
    /// What a reset leaves behind.
    pub fn disabled(pdu_length: u8) -> State {
        State {
            link: Link::Disabled,
            pdu_length,
            dual: false,
            com_time: 0,
            counters: None,
            command_latch: 0,
            communication_latch: 0,
        }
    }

    /// The record's state if the record is valid beside this sheet.
    pub fn read(record: &[u8], sheet: &Sheet) -> Option<State> {
        if record.len() != LENGTH || record[0] != KIND || record[FAILURES_AT] > sheet.tolerance() {
            return None;
        }
        State::of_fields(&record[SHARED], record[FAILURES_AT], sheet.pdu_length())
    }

    /// The state of a record from before request 9, which has counted no failure.
    pub fn read_old(record: &[u8], sheet: &Sheet) -> Option<State> {
        if record.len() != OLD_LENGTH || record[0] != OLD_KIND {
            return None;
        }
        State::of_fields(&record[SHARED], 0, sheet.pdu_length())
    }

    /// The state of the octets behind the kind and of the count, if they are valid together.
    fn of_fields(octets: &[u8], failures: u8, pdu_length: u8) -> Option<State> {
        if octets[1] != pdu_length {
            return None;
        }
        let state = State {
            link: Link::of(octets[0])?,
            pdu_length,
            dual: flag(octets[2])?,
            com_time: octets[3],
            counters: counters(flag(octets[4])?, octets[5], octets[6], failures)?,
            command_latch: one_of(octets[7], &[0, 8, 9, 10, 12])?,
            communication_latch: one_of(octets[8], &[0, LOST_CYCLE])?,
        };
        if state.fields_agree() {
            Some(state)
        } else {
            None
        }
    }

    fn fields_agree(&self) -> bool {
        let synchronous = self.link == Link::SyncConnected;
        let connected = synchronous || self.link == Link::AsyncConnected;
        (self.com_time != 0) == connected
            && (synchronous || (!self.dual && self.counters.is_none()))
            && (!self.dual || self.com_time >= 2)
            && (self.link != Link::Disabled || !self.latched())
    }

    /// Writes the whole record into eleven octets.
    pub fn write(&self, record: &mut [u8]) {
        let known = u8::from(self.counters.is_some());
        let counters = self.counters.unwrap_or_default();
        record.copy_from_slice(&[
            KIND,
            self.link as u8,
            self.pdu_length,
            u8::from(self.dual),
            self.com_time,
            known,
            counters.last_mn,
            counters.rsn,
            self.command_latch,
            self.communication_latch,
            counters.failures,
        ]);
    }

    /// Whether a latch is nonzero.
    pub fn latched(&self) -> bool {
        self.command_latch != 0 || self.communication_latch != 0
    }

    /// Whether this WDT fails check 1.
    ///
    /// "With MN known, link 3 shall require that MN follows and that SN equals the
    /// state's RSN" (request 5); with MN not known neither is asked.
    pub fn misses(&self, wdt: u8) -> bool {
        let (mn, sn) = (wdt & 15, wdt >> 4);
        match self.counters {
            Some(counters) => mn != (counters.last_mn + 1) % 16 || sn != counters.rsn,
            None => false,
        }
    }

    /// Failures in a row so far.
    pub fn failures(&self) -> u8 {
        self.counters.map_or(0, |counters| counters.failures)
    }

    /// With so many failures in a row, where there is a count of them.
    fn with_failures(self, failures: u8) -> State {
        State {
            counters: self.counters.map(|counters| Counters {
                failures,
                ..counters
            }),
            ..self
        }
    }

    /// "An exchange that passes check 1 sets the count to 0", accepted or refused.
    pub fn in_step(self) -> State {
        self.with_failures(0)
    }

    /// After a failure within what the sheet allows: link and latches stay.
    pub fn failure_tolerated(self) -> State {
        self.with_failures(self.failures() + 1)
    }

    /// Disabled becomes Disconnected.
    pub fn enabled(self) -> State {
        State {
            link: Link::Disconnected,
            ..self
        }
    }

    /// AsyncConnected as CONNECT enters it.
    pub fn async_connected(self, com_time: u8) -> State {
        State {
            link: Link::AsyncConnected,
            dual: false,
            com_time,
            counters: None,
            ..self
        }
    }

    /// SyncConnected as CONNECT and SYNC_SET enter it: MN not known, RSN 0.
    pub fn sync_connected(self, com_time: u8, dual: bool) -> State {
        State {
            link: Link::SyncConnected,
            dual,
            com_time,
            counters: None,
            ..self
        }
    }

    /// Disconnected, with the latches kept.
    pub fn disconnected(self) -> State {
        State {
            link: Link::Disconnected,
            dual: false,
            com_time: 0,
            counters: None,
            ..self
        }
    }

    /// After a lost cycle: AsyncConnected with the communication latch set.
    pub fn cycle_lost(self) -> State {
        State {
            communication_latch: LOST_CYCLE,
            ..self.async_connected(self.com_time)
        }
    }

    /// The first alarm stays in the latch until it is cleared.
    pub fn with_alarm(self, alarm: u8) -> State {
        let command_latch = match self.command_latch {
            0 => alarm,
            old => old,
        };
        State {
            command_latch,
            ..self
        }
    }

    /// Both latches cleared.
    pub fn cleared(self) -> State {
        State {
            command_latch: 0,
            communication_latch: 0,
            ..self
        }
    }

    /// One more exchange that began and ended in SyncConnected.
    pub fn counted(self, mn: u8) -> State {
        let counters = self.counters.unwrap_or_default();
        State {
            counters: Some(Counters {
                last_mn: mn,
                rsn: (counters.rsn + 1) % 16,
                ..counters
            }),
            ..self
        }
    }
}

fn flag(octet: u8) -> Option<bool> {
    match octet {
        0 => Some(false),
        1 => Some(true),
        _ => None,
    }
}

fn one_of(octet: u8, allowed: &[u8]) -> Option<u8> {
    allowed.iter().copied().find(|&value| value == octet)
}

/// The outer answer is whether the four octets are valid together.
fn counters(known: bool, last_mn: u8, rsn: u8, failures: u8) -> Option<Option<Counters>> {
    match (known, last_mn, rsn, failures) {
        (false, 0, 0, 0) => Some(None),
        (true, 0..=15, 0..=15, _) => Some(Some(Counters {
            last_mn,
            rsn,
            failures,
        })),
        _ => None,
    }
}
