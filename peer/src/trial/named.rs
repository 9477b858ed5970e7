//! Request 13: the octets that each command names; all others are reserved.
//!
//! Written down beside the engine's own table, so that a slip in that one is
//! seen here.

use super::wire::Wire;
use crate::engine::memory_mode;
use crate::engine::octets::number_16;
use std::ops::Range;

/// The fields of a code that the type has.
pub fn fields(wire: &Wire, code: u8) -> Range<usize> {
    match (code, wire.has_memory) {
        (0x01 | 0x02, _) => 4..7,
        (0x03 | 0x0E, true) => 4..8,
        (0x03 | 0x0E, false) => 4..7,
        (0x05 | 0x06, true) => 4..6,
        (0x05 | 0x06, false) => 4..5,
        (0x1D | 0x1E, true) => 5..12,
        _ => 4..4,
    }
}

/// The data that a command writes, as far as its size or count tells, and the PDU has it.
pub fn data(wire: &Wire, command: &[u8]) -> Range<usize> {
    let (start, octets) = match (command[0], wire.has_memory) {
        (0x02, true) => (8, usize::from(command[6])),
        (0x02, false) => (7, usize::from(command[6])),
        (0x1E, true) => {
            let element = memory_mode::element_octets(command[5]).unwrap_or(0);
            (12, usize::from(number_16(command, 6)) * element)
        }
        (code, _) => (fields(wire, code).end, 0),
    };
    let end = command.len();
    start.min(end)..(start + octets).min(end)
}

/// The bits of each octet that the command names.
pub fn named_bits(wire: &Wire, command: &[u8]) -> Vec<u8> {
    let mut bits = vec![0; command.len()];
    for at in fields(wire, command[0]).chain(data(wire, command)) {
        if let Some(octet) = bits.get_mut(at) {
            *octet = 0xFF;
        }
    }
    bits[0] = 0xFF;
    bits[wire.wdt] = 0xFF;
    bits[2] = wire.identity;
    bits
}

/// The octets that have reserved bits, from the first on.
pub fn reserved(wire: &Wire, command: &[u8]) -> Vec<usize> {
    let bits = named_bits(wire, command);
    (0..bits.len()).filter(|&at| bits[at] != 0xFF).collect()
}

/// The first octet with a reserved bit that is set.
pub fn first_set(wire: &Wire, command: &[u8]) -> Option<usize> {
    let bits = named_bits(wire, command);
    (0..bits.len()).find(|&at| command[at] & !bits[at] != 0)
}

/// Makes all that is reserved zero.
pub fn hush(wire: &Wire, command: &mut [u8]) {
    let bits = named_bits(wire, command);
    for (octet, named) in command.iter_mut().zip(bits) {
        *octet &= named;
    }
}

#[cfg(test)]
mod tests {
    use super::*;
    use crate::trial::wire::{ENHANCED, SHORT};

    fn command(length: usize, code: u8, body: &[u8]) -> Vec<u8> {
        let mut command = vec![0xFF; length];
        command[0] = code;
        command[4..4 + body.len()].copy_from_slice(body);
        command
    }

    /// The octets from each first number on, up to the second.
    fn octets_of(stretches: &[(usize, usize)]) -> Vec<usize> {
        let stretches = stretches.iter();
        stretches.flat_map(|&(start, end)| start..end).collect()
    }

    #[test]
    fn reserved_octets_are_those_of_the_table() {
        let long = memory_mode::octet(3);
        for (code, body, behind) in [
            (0x00, &[][..], &[(4, 16)][..]),
            (0x01, &[1, 0, 4], &[(7, 16)]),
            (0x02, &[1, 0, 4], &[(7, 8), (12, 16)]),
            (0x02, &[1, 0, 8], &[(7, 8)]),
            (0x02, &[1, 0, 255], &[(7, 8)]),
            (0x03, &[1, 0, 4, 0], &[(8, 16)]),
            (0x05, &[0, 0], &[(6, 16)]),
            (0x0E, &[3, 0, 1, 4], &[(8, 16)]),
            (0x1D, &[0, long, 1, 0], &[(4, 5), (12, 16)]),
            (0x1E, &[0, long, 1, 0], &[(4, 5)]),
            (0x1E, &[0, long, 0xFF, 0xFF], &[(4, 5)]),
            (0x77, &[], &[(4, 16)]),
        ] {
            let expected = [octets_of(&[(2, 4)]), octets_of(behind)].concat();
            assert_eq!(reserved(&ENHANCED, &command(16, code, body)), expected);
        }
    }

    #[test]
    fn reserved_octets_of_the_short_type_are_those_of_the_table() {
        for (code, body, behind) in [
            (0x00, &[][..], (4, 15)),
            (0x01, &[1, 0, 4], (7, 15)),
            (0x02, &[1, 0, 4], (11, 15)),
            (0x02, &[1, 0, 8], (15, 15)),
            (0x03, &[1, 0, 4], (7, 15)),
            (0x06, &[0], (5, 15)),
            (0x0E, &[3, 0, 1], (7, 15)),
            (0x1E, &[0, 0x11, 1], (4, 15)),
        ] {
            let expected = octets_of(&[(1, 4), behind]);
            assert_eq!(reserved(&SHORT, &command(16, code, body)), expected);
        }
    }

    #[test]
    fn a_hushed_command_has_no_reserved_bit_left() {
        for (wire, first) in [(&ENHANCED, 2), (&SHORT, 1)] {
            let mut octets = command(16, 0x06, &[0, 0]);
            assert_eq!(first_set(wire, &octets), Some(first));
            hush(wire, &mut octets);
            assert_eq!(first_set(wire, &octets), None);
            assert_eq!(
                (octets[0], octets[2], octets[wire.wdt]),
                (6, wire.identity, 0xFF)
            );
            octets[14] = 1;
            assert_eq!(first_set(wire, &octets), Some(14));
        }
    }
}
