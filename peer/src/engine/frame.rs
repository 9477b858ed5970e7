//! The two PDU types: for each one table of where its octets stand and how many there are.
//!
//! Document 01 has the enhanced type, request 7 of document 02 the short one
//! (002, 4.2.2.2 and 4.3.1). What stands at one place in both is a constant of
//! the room that reads it; states, watchdog, rights and latches know no type.

use super::code::Code;
use std::ops::Range;

/// The sheet record that selects the short type, in the link record's place.
pub const SHORT_LINK: u8 = 5;
/// The sheet record that selects the enhanced type.
pub const ENHANCED_LINK: u8 = 1;

/// A number of a command: its first octet, and how many it has.
#[derive(Clone, Copy, Debug, PartialEq, Eq)]
pub struct Field {
    pub at: usize,
    pub octets: usize,
}

impl Field {
    /// The number, which is sent low octet first.
    pub fn of(self, command: &[u8]) -> usize {
        let octets = &command[self.span()];
        let step = |number: usize, &octet: &u8| number << 8 | usize::from(octet);
        octets.iter().rev().fold(0, step)
    }

    /// The place that is told of it (request 3).
    pub fn place(self) -> u32 {
        self.at as u32
    }

    /// Its octets in the command.
    pub fn span(self) -> Range<usize> {
        self.at..self.at + self.octets
    }
}

/// What one PDU type has its own numbers for.
#[derive(Debug, PartialEq, Eq)]
pub struct Frame {
    /// The lengths L that its link record may have.
    pub lengths: &'static [u8],
    /// Codes that it does not have, so that they are unknown.
    pub without: &'static [Code],
    /// The octet of WDT in the command and of RWDT in the reply.
    pub wdt: usize,
    /// The octet of the reply whose low half is the command's alarm.
    pub alarm: usize,
    /// Octets of the command before its fields that are neither code nor WDT.
    pub head: Range<usize>,
    /// Bits of command octet 2 that come back in reply octet 2 (request 1).
    pub identity: u8,
    /// The first octet of a parameter's or an ID item's data.
    pub data: usize,
    /// Octets behind the last that data may have.
    pub behind_data: usize,
    /// The size that ID_RD asks for.
    pub id_size: Field,
    /// What ALM_RD and ALM_CLR have to hold zero in.
    pub alarm_mode: Field,
    /// The first of the two octets in which ALM_RD shows the latches.
    pub latches: usize,
    /// The profile of CONNECT, if it names one.
    pub profile: Option<Field>,
    /// Octets of ID_RD and of CONNECT that come again, which are their fields.
    pub echo: Range<usize>,
}

/// Code, WDT and control, then the body; code, RWDT and status, then the body.
pub static ENHANCED: Frame = Frame {
    lengths: &[8, 16, 32, 48, 64],
    without: &[],
    wdt: 1,
    alarm: 3,
    head: 2..4,
    identity: 0xC0,
    data: 8,
    behind_data: 0,
    id_size: Field { at: 6, octets: 2 },
    alarm_mode: Field { at: 4, octets: 2 },
    latches: 8,
    profile: Some(Field { at: 7, octets: 1 }),
    echo: 4..8,
};

/// Code, 14 octets of body, WDT; code, alarm, status, 11 octets of body, RWDT.
pub static SHORT: Frame = Frame {
    lengths: &[16],
    without: &[Code::MemRd, Code::MemWr],
    wdt: 15,
    alarm: 1,
    head: 1..4,
    identity: 0,
    data: 7,
    behind_data: 1,
    id_size: Field { at: 6, octets: 1 },
    alarm_mode: Field { at: 4, octets: 1 },
    latches: 5,
    profile: None,
    echo: 4..7,
};

impl Frame {
    /// The type that a link record of this kind selects.
    pub fn of_link(kind: u8) -> &'static Frame {
        if kind == SHORT_LINK {
            &SHORT
        } else {
            &ENHANCED
        }
    }

    /// The command of this code, if the type has it.
    pub fn code(&self, octet: u8) -> Option<Code> {
        Code::of(octet).filter(|code| !self.without.contains(code))
    }

    /// How many octets of a parameter or an ID item a PDU of this length carries.
    pub fn room(&self, pdu_length: usize) -> usize {
        pdu_length - self.data - self.behind_data
    }
}
