//! The slave on byte slices, as document 01 ("What we are to build") rules,
//! with requests 1 to 3, 5 to 9 and 13 of document 02.
//!
//! Each call answers number + 2^32 × place. A call with a number other than 0
//! has written nothing, except a replay's difference (34), which has replayed
//! the records before the differing one.

pub mod answer;
pub mod apply;
pub mod code;
pub mod command;
pub mod difference;
pub mod exchange;
pub mod frame;
pub mod kind;
pub mod memory_mode;
pub mod octets;
pub mod record;
pub mod region;
pub mod replay;
pub mod reserved;
pub mod sheet;
pub mod state;

#[cfg(test)]
mod apply_tests;
#[cfg(test)]
mod bench_cases;
#[cfg(test)]
mod difference_order_tests;
#[cfg(test)]
mod difference_tests;
#[cfg(test)]
mod identity_tests;
#[cfg(test)]
mod parameter_tests;
#[cfg(test)]
mod place_tests;
#[cfg(test)]
mod release_tests;
#[cfg(test)]
mod replay_tests;
#[cfg(test)]
mod reserved_order_tests;
#[cfg(test)]
mod reserved_tests;
#[cfg(test)]
mod rule_tests;
#[cfg(test)]
mod sheet_tests;
#[cfg(test)]
mod short_bench_tests;
#[cfg(test)]
mod short_field_tests;
#[cfg(test)]
mod short_replay_tests;
#[cfg(test)]
mod short_reserved_tests;
#[cfg(test)]
mod short_sheet_tests;
#[cfg(test)]
mod tolerance_tests;
#[cfg(test)]
mod turn_tests;
#[cfg(test)]
mod watchdog_tests;

use answer::{refuse, Answer};
use sheet::Sheet;
use state::{Link, State};

/// The sheet's verdict: 0, or its first fault with its place.
pub fn sheet(sheet: &[u8]) -> u64 {
    tell(Sheet::read(sheet).map(|_| ()))
}

/// L + 2^32 × the length of the memory, or 0 for a refused sheet.
pub fn lengths(sheet: &[u8]) -> u64 {
    match Sheet::read(sheet) {
        Ok(sheet) => u64::from(sheet.pdu_length()) | (sheet.memory_length() as u64) << 32,
        Err(_) => 0,
    }
}

/// Of the calls and their records: 2 since the state record has eleven octets, 3 since a reply may be of the short type.
pub fn version() -> u64 {
    3
}

/// Writes Disabled with the sheet's L and zeros into eleven octets of any content.
pub fn reset(sheet: &[u8], state: &mut [u8]) -> u64 {
    tell(try_reset(sheet, state))
}

/// Turns Disabled into Disconnected.
pub fn enable(sheet: &[u8], state: &mut [u8]) -> u64 {
    tell(try_enable(sheet, state))
}

/// Turns a state record from before request 9 into one of now, in eleven octets of any content.
pub fn turn(sheet: &[u8], old: &[u8], state: &mut [u8]) -> u64 {
    tell(try_turn(sheet, old, state))
}

/// Builds the reply to one command; the place is that of a refused command (request 3).
pub fn exchange(
    sheet: &[u8],
    state: &mut [u8],
    memory: &mut [u8],
    command: &[u8],
    reply: &mut [u8],
) -> u64 {
    match try_exchange(sheet, state, memory, command, reply) {
        Ok(answer) | Err(answer) => answer.packed(),
    }
}

/// Replays a trace of commands and replies (request 6 of document 02).
///
/// All agree: 0 with the number of records. A difference: 34 with record
/// number × 64 + the first differing octet of the reply; state and memory stand
/// as before that record.
pub fn replay(sheet: &[u8], state: &mut [u8], memory: &mut [u8], trace: &[u8]) -> u64 {
    match replay::replay(sheet, state, memory, trace) {
        Ok(answer) | Err(answer) => answer.packed(),
    }
}

/// Lists what the second sheet has otherwise than the first (request 2 of document 02).
///
/// The list is written: 0 with its length. It has no room: 28 with the length that it needs.
pub fn difference(first: &[u8], second: &[u8], list: &mut [u8]) -> u64 {
    match difference::difference(first, second, list) {
        Ok(answer) | Err(answer) => answer.packed(),
    }
}

fn tell(outcome: Result<(), Answer>) -> u64 {
    match outcome {
        Ok(()) => 0,
        Err(answer) => answer.packed(),
    }
}

fn try_reset(sheet: &[u8], state: &mut [u8]) -> Result<(), Answer> {
    let sheet = Sheet::read(sheet)?;
    if state.len() != state::LENGTH {
        return Err(refuse(answer::STATE));
    }
    State::disabled(sheet.pdu_length()).write(state);
    Ok(())
}

fn try_enable(sheet: &[u8], state: &mut [u8]) -> Result<(), Answer> {
    let sheet = Sheet::read(sheet)?;
    let before = State::read(state, &sheet).ok_or_else(|| refuse(answer::STATE))?;
    if before.link != Link::Disabled {
        return Err(refuse(answer::NOT_DISABLED));
    }
    before.enabled().write(state);
    Ok(())
}

/// "1 for a bad old record or another length than eleven."
fn try_turn(sheet: &[u8], old: &[u8], state: &mut [u8]) -> Result<(), Answer> {
    let sheet = Sheet::read(sheet)?;
    let turned = State::read_old(old, &sheet).ok_or_else(|| refuse(answer::STATE))?;
    if state.len() != state::LENGTH {
        return Err(refuse(answer::STATE));
    }
    turned.write(state);
    Ok(())
}

fn try_exchange(
    sheet: &[u8],
    state: &mut [u8],
    memory: &mut [u8],
    command: &[u8],
    reply: &mut [u8],
) -> Result<Answer, Answer> {
    let sheet = Sheet::read(sheet)?;
    let before = State::read(state, &sheet).ok_or_else(|| refuse(answer::STATE))?;
    let pdu_length = usize::from(sheet.pdu_length());
    if memory.len() != sheet.memory_length() {
        return Err(refuse(answer::MEMORY));
    }
    if command.len() != pdu_length {
        return Err(refuse(answer::COMMAND));
    }
    if reply.len() != pdu_length {
        return Err(refuse(answer::REPLY));
    }
    if before.link == Link::Disabled {
        return Err(refuse(answer::DISABLED));
    }
    let outcome = exchange::decide(&sheet, before, memory, command);
    reply.copy_from_slice(&outcome.reply[..pdu_length]);
    outcome.store(state, memory, command);
    Ok(answer::done_at(outcome.place))
}
