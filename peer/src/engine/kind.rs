//! The kinds of a sheet's records: their octets, lengths and order.

use super::frame::{ENHANCED_LINK, SHORT_LINK};

pub const LINK_RECORD: usize = 4;
pub const REGION_RECORD: usize = 10;
pub const PARAMETER_RECORD: usize = 8;
pub const ITEM_RECORD: usize = 35;
const TOLERANCE_RECORD: usize = 2;
const RELEASE_RECORD: usize = 2;

/// The kinds in the order in which a sheet has them, the end apart.
#[derive(Clone, Copy, Debug, PartialEq, Eq, PartialOrd, Ord)]
pub enum Kind {
    /// Of the enhanced type or, request 7, of the short one.
    Link,
    Region,
    Parameter,
    Item,
    /// How many failures in a row are allowed (request 9).
    Tolerance,
    /// Which release of the drive rules holds (request 13).
    Release,
    End,
}

impl Kind {
    /// The kind of this octet, if there is one.
    pub fn of(octet: u8) -> Option<Kind> {
        match octet {
            0 => Some(Kind::End),
            ENHANCED_LINK | SHORT_LINK => Some(Kind::Link),
            2 => Some(Kind::Region),
            3 => Some(Kind::Parameter),
            4 => Some(Kind::Item),
            6 => Some(Kind::Tolerance),
            7 => Some(Kind::Release),
            _ => None,
        }
    }

    /// The octets of its records, the kind included.
    pub fn record_length(self) -> usize {
        match self {
            Kind::Link => LINK_RECORD,
            Kind::Region => REGION_RECORD,
            Kind::Parameter => PARAMETER_RECORD,
            Kind::Item => ITEM_RECORD,
            Kind::Tolerance => TOLERANCE_RECORD,
            Kind::Release => RELEASE_RECORD,
            Kind::End => 1,
        }
    }

    /// The lengths of its body's fields, in their order (request 2).
    pub fn fields(self) -> &'static [usize] {
        match self {
            Kind::Link => &[1, 1, 1],
            Kind::Region => &[4, 4, 1],
            Kind::Parameter => &[2, 4, 1],
            Kind::Item => &[1, 1, 32],
            Kind::Tolerance | Kind::Release => &[1],
            Kind::End => &[],
        }
    }

    /// The octets of the key that its body begins with: "start, number and code", the others have none.
    pub fn key_length(self) -> usize {
        match self {
            Kind::Region => 4,
            Kind::Parameter => 2,
            Kind::Item => 1,
            Kind::Link | Kind::Tolerance | Kind::Release | Kind::End => 0,
        }
    }

    /// A link record of either type comes first and once, a tolerance and a release once; the others never step back.
    pub fn in_place(self, last: Option<Kind>) -> bool {
        match last {
            None => self == Kind::Link,
            Some(Kind::Tolerance) => self > Kind::Tolerance,
            Some(Kind::Release) => self > Kind::Release,
            Some(last) => self != Kind::Link && self >= last,
        }
    }
}
