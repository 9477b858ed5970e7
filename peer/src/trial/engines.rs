//! An engine as its callable functions, so that two can be run alike.

use crate::engine;

/// Sheet, state, memory, command and reply to an answer.
pub type Exchange = fn(&[u8], &mut [u8], &mut [u8], &[u8], &mut [u8]) -> u64;
/// Sheet, state, memory and trace to an answer.
pub type Replay = fn(&[u8], &mut [u8], &mut [u8], &[u8]) -> u64;

/// Sheet, old record and new record to an answer.
pub type Turn = fn(&[u8], &[u8], &mut [u8]) -> u64;

/// Two sheets and a list to an answer.
pub type Difference = fn(&[u8], &[u8], &mut [u8]) -> u64;

/// The functions of an engine.
#[derive(Clone, Copy)]
pub struct Engine {
    pub sheet: fn(&[u8]) -> u64,
    pub lengths: fn(&[u8]) -> u64,
    pub reset: fn(&[u8], &mut [u8]) -> u64,
    pub enable: fn(&[u8], &mut [u8]) -> u64,
    pub turn: Turn,
    pub exchange: Exchange,
    pub replay: Replay,
    pub difference: Difference,
    pub version: fn() -> u64,
}

/// The engine of this crate.
pub const PEER: Engine = Engine {
    sheet: engine::sheet,
    lengths: engine::lengths,
    reset: engine::reset,
    enable: engine::enable,
    turn: engine::turn,
    exchange: engine::exchange,
    replay: engine::replay,
    difference: engine::difference,
    version: engine::version,
};
