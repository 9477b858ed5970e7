//! What a call tells: a number of document 01's table, and a place.

/// State record of wrong length or not valid, an old one where it is turned too.
pub const STATE: u32 = 1;
/// Memory length not the sum of the regions.
pub const MEMORY: u32 = 2;
/// Command length not L.
pub const COMMAND: u32 = 3;
/// Reply length not L.
pub const REPLY: u32 = 4;
/// Exchange while Disabled.
pub const DISABLED: u32 = 5;
/// Enable when not Disabled.
pub const NOT_DISABLED: u32 = 6;

/// Sheet ended before an end record, body cut short, or sheet too long.
pub const CUT: u32 = 11;
/// Unknown kind.
pub const UNKNOWN_KIND: u32 = 12;
/// Kind out of place, or octets after the end record.
pub const OUT_OF_PLACE: u32 = 13;
/// Field range.
pub const RANGE: u32 = 14;
/// Order or overlap.
pub const ORDER: u32 = 15;
/// Too many records or too much memory.
pub const TOO_MUCH: u32 = 16;
/// Parameter span not wholly in regions.
pub const SPAN: u32 = 17;

/// A fault of the second of two sheets is told as the first one's, and this more.
pub const OF_SECOND: u32 = 10;
/// The list of differences is longer than the lent buffer.
pub const LIST_LONG: u32 = 28;

/// Trace record of unknown kind.
pub const TRACE_KIND: u32 = 31;
/// Trace record whose L is not the sheet's.
pub const TRACE_LENGTH: u32 = 32;
/// Trace record cut short.
pub const TRACE_CUT: u32 = 33;
/// A reply of the trace is not this machine's.
pub const DIFFERENT: u32 = 34;
/// A trace with more octets than places can tell.
pub const TRACE_LONG: u32 = 35;

/// A number and the place it speaks of.
#[derive(Clone, Copy, Debug, PartialEq, Eq)]
pub struct Answer {
    pub number: u32,
    pub place: u32,
}

impl Answer {
    /// The answer as one number: number + 2^32 × place.
    pub fn packed(self) -> u64 {
        u64::from(self.number) | u64::from(self.place) << 32
    }
}

/// A reply that was built, a trace that agrees, or a list that was written, with what its place tells.
pub fn done_at(place: u32) -> Answer {
    Answer { number: 0, place }
}

/// A refusal without a place.
pub fn refuse(number: u32) -> Answer {
    Answer { number, place: 0 }
}

/// A refusal at a place of the sheet or of the trace, or with a list's length; all are far below 4 GiB.
pub fn refuse_at(number: u32, place: usize) -> Answer {
    Answer {
        number,
        place: place as u32,
    }
}
