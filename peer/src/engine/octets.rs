//! Numbers of more than one octet are sent low octet first.

/// The two octets at `at` as a number.
pub fn number_16(octets: &[u8], at: usize) -> u16 {
    u16::from_le_bytes([octets[at], octets[at + 1]])
}

/// The four octets at `at` as a number.
pub fn number_32(octets: &[u8], at: usize) -> u32 {
    let four = &octets[at..at + 4];
    u32::from_le_bytes([four[0], four[1], four[2], four[3]])
}
