//! A call on an engine: which function, and what is lent to it.

/// The function of an engine that is called.
#[derive(Clone, Copy, Debug, PartialEq, Eq, PartialOrd, Ord)]
pub enum Call {
    Sheet,
    Lengths,
    Reset,
    Enable,
    Turn,
    Exchange,
    Replay,
    Difference,
}

/// What is lent to a call. State and memory stay for the next call.
///
/// Differences are lent two sheets and a list and nothing else, and the other calls neither of the last two.
#[derive(Clone, Debug, Default)]
pub struct Inputs {
    /// The first one, where there are two.
    pub sheet: Vec<u8>,
    pub state: Vec<u8>,
    /// The record that is turned.
    pub old: Vec<u8>,
    pub memory: Vec<u8>,
    pub command: Vec<u8>,
    pub reply: Vec<u8>,
    pub trace: Vec<u8>,
    pub second: Vec<u8>,
    pub list: Vec<u8>,
}
