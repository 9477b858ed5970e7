//! The two PDU types as the trials build and expect them (request 7).
//!
//! Written down beside the engine's own table, so that a slip in that one is
//! seen here. A parameter or an ID item has room for L - 8 octets in both types.

/// Where a type has its octets, and what it has at all.
#[derive(Debug, PartialEq, Eq)]
pub struct Wire {
    /// What its rows of the tally begin with.
    pub name: &'static str,
    /// The kind of the sheet's first record.
    pub link_kind: u8,
    /// The octet of WDT and RWDT.
    pub wdt: usize,
    /// The octet of the reply with the command's alarm in its low half.
    alarm: usize,
    /// The octets of the size of ID_RD, and of the mode of ALM_RD and ALM_CLR.
    pub field_octets: usize,
    /// Bits of octet 2 that come back.
    pub identity: u8,
    /// Whether CONNECT names the profile at octet 7.
    pub names_profile: bool,
    /// Whether MEM_RD and MEM_WR are there.
    pub has_memory: bool,
}

pub static ENHANCED: Wire = Wire {
    name: "",
    link_kind: 1,
    wdt: 1,
    alarm: 3,
    field_octets: 2,
    identity: 0xC0,
    names_profile: true,
    has_memory: true,
};

pub static SHORT: Wire = Wire {
    name: "short type: ",
    link_kind: 5,
    wdt: 15,
    alarm: 1,
    field_octets: 1,
    identity: 0,
    names_profile: false,
    has_memory: false,
};

impl Wire {
    /// The type of a sheet, which its first octet tells.
    pub fn of_sheet(sheet: &[u8]) -> &'static Wire {
        if sheet.first() == Some(&SHORT.link_kind) {
            &SHORT
        } else {
            &ENHANCED
        }
    }

    /// The command's alarm in a built reply.
    pub fn alarm(&self, reply: &[u8]) -> u8 {
        reply[self.alarm] & 15
    }

    /// Whether the type has this code, of those that are built.
    pub fn knows(&self, code: u8) -> bool {
        self.has_memory || ![0x1D, 0x1E].contains(&code)
    }
}
