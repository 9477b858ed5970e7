//! Octet 5 of MEM_RD and MEM_WR, the field mMode of 002, 4.3.3.13 and 4.3.3.14.
//!
//! There mMode is SEQUENCE { data_type (4 bits), mode (4 bits) }, data_type is
//! "a type of the memory" (1 volatile) and mode is "the data type of the
//! specified data" (1, 2, 3 for elements of 1, 2, 4 octets). By 5.2.3 an octet
//! is filled from its lower bit in the order of the definition, so the memory
//! type is in the low half and the element in the high half. Document 01 has
//! them the other way about, and says that then 002 decides.

/// Bits below the element's half: 4 as 002 has it, 0 as document 01 has it.
pub const ELEMENT_SHIFT: u32 = 4;

const MEMORY_TYPE_SHIFT: u32 = 4 - ELEMENT_SHIFT;
const VOLATILE: u8 = 1;

/// The octets of one element, or nothing if the octet is not allowed.
pub fn element_octets(mode: u8) -> Option<usize> {
    if mode >> MEMORY_TYPE_SHIFT & 15 != VOLATILE {
        return None;
    }
    match mode >> ELEMENT_SHIFT & 15 {
        1 => Some(1),
        2 => Some(2),
        3 => Some(4),
        _ => None,
    }
}

/// The octet that asks for volatile memory in elements of that code (1, 2, 3).
pub fn octet(element_code: u8) -> u8 {
    VOLATILE << MEMORY_TYPE_SHIFT | (element_code & 15) << ELEMENT_SHIFT
}
