//! Request 13: the octets that a command does not name, which release 2 of the
//! drive rules asks to be zero.
//!
//! Code, WDT and identity are named by every command, fields by most, and data
//! by those that write it; all others are reserved, to the end of the PDU.

use super::frame::Frame;
use std::ops::Range;

/// The octet whose identity bits are named (request 1).
const IDENTITY_AT: usize = 2;
/// The first octet behind the head, in both types.
const BODY: usize = 4;

/// The first reserved octet that is not zero, in a command with these fields and this data behind them.
pub fn first_reserved(
    frame: &Frame,
    command: &[u8],
    fields: Range<usize>,
    data: Range<usize>,
) -> Option<usize> {
    // In the short type WDT is behind all that data may have.
    let end = command.len() - frame.behind_data;
    first_of_head(frame, command)
        .or_else(|| first_of(command, BODY..fields.start))
        .or_else(|| first_of(command, fields.end..data.start))
        .or_else(|| first_of(command, data.end..end))
}

fn first_of_head(frame: &Frame, command: &[u8]) -> Option<usize> {
    let reserved_bits = |at| match at {
        IDENTITY_AT => command[at] & !frame.identity,
        _ => command[at],
    };
    frame.head.clone().find(|&at| reserved_bits(at) != 0)
}

fn first_of(command: &[u8], stretch: Range<usize>) -> Option<usize> {
    let octets = &command[stretch.clone()];
    // Nearly always all are zero, which is seen faster without a way out at each octet.
    if octets.iter().fold(0, |all, octet| all | octet) == 0 {
        return None;
    }
    let first = octets.iter().position(|&octet| octet != 0);
    first.map(|at| stretch.start + at)
}
