//! The codes of commands, and the links that allow them.

use super::state::Link;

/// The commands that are built (codes of 002, 4.2.2.2.1).
#[derive(Clone, Copy, Debug, PartialEq, Eq)]
pub enum Code {
    Nop,
    PrmRd,
    PrmWr,
    IdRd,
    AlmRd,
    AlmClr,
    SyncSet,
    Connect,
    Disconnect,
    MemRd,
    MemWr,
}

impl Code {
    /// The command of this code, whichever PDU type has it.
    pub fn of(octet: u8) -> Option<Code> {
        match octet {
            0x00 => Some(Code::Nop),
            0x01 => Some(Code::PrmRd),
            0x02 => Some(Code::PrmWr),
            0x03 => Some(Code::IdRd),
            0x05 => Some(Code::AlmRd),
            0x06 => Some(Code::AlmClr),
            0x0D => Some(Code::SyncSet),
            0x0E => Some(Code::Connect),
            0x0F => Some(Code::Disconnect),
            0x1D => Some(Code::MemRd),
            0x1E => Some(Code::MemWr),
            _ => None,
        }
    }

    /// Whether an exchange that begins in this link may have it.
    pub fn allowed_in(self, link: Link) -> bool {
        match self {
            Code::Nop | Code::Disconnect => true,
            Code::Connect => link == Link::Disconnected,
            Code::SyncSet => link == Link::AsyncConnected,
            _ => link == Link::AsyncConnected || link == Link::SyncConnected,
        }
    }
}
