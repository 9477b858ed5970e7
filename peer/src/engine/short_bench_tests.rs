//! Request 7: a case of the short type for each code and each alarm, with every octet written out.

use super::exchange;

/// L 16, version 30 hex, profile 5. Four octets at 1000 hex for reading, four behind them for writing,
/// and ten for all; parameters 7 to 11 of 2, 8, 9, 8 and 4 octets; item 1 of nine octets.
pub fn sheet() -> Vec<u8> {
    let mut octets = vec![0x05, 0x10, 0x30, 0x05];
    octets.extend([0x02, 0x00, 0x10, 0x00, 0x00, 0x04, 0x00, 0x00, 0x00, 0x03]);
    octets.extend([0x02, 0x04, 0x10, 0x00, 0x00, 0x04, 0x00, 0x00, 0x00, 0x06]);
    octets.extend([0x02, 0x08, 0x10, 0x00, 0x00, 0x0A, 0x00, 0x00, 0x00, 0x07]);
    octets.extend([0x03, 0x07, 0x00, 0x02, 0x10, 0x00, 0x00, 0x02]);
    octets.extend([0x03, 0x08, 0x00, 0x08, 0x10, 0x00, 0x00, 0x08]);
    octets.extend([0x03, 0x09, 0x00, 0x08, 0x10, 0x00, 0x00, 0x09]);
    octets.extend([0x03, 0x0A, 0x00, 0x01, 0x10, 0x00, 0x00, 0x08]);
    octets.extend([0x03, 0x0B, 0x01, 0x02, 0x10, 0x00, 0x00, 0x04]);
    octets.extend([0x04, 0x01, 0x09]);
    octets.extend([0x21, 0x22, 0x23, 0x24, 0x25, 0x26, 0x27, 0x28, 0x29]);
    octets.extend([0; 23]);
    octets.push(0x00);
    octets
}

pub const MEMORY: [u8; 18] = [
    0x0A, 0x0B, 0x0C, 0x0D, 0x0E, 0x0F, 0x10, 0x11, 0x12, 0x13, 0x14, 0x15, 0x16, 0x17, 0x18, 0x19,
    0x1A, 0x1B,
];
const DISCONNECTED: [u8; 11] = [0x12, 1, 0x10, 0, 0, 0, 0, 0, 0, 0, 0];
const ASYNC: [u8; 11] = [0x12, 2, 0x10, 0, 1, 0, 0, 0, 0, 0, 0];
/// Last MN 7 and RSN 4, so the WDT that is asked for is 48 hex.
pub const SYNC: [u8; 11] = [0x12, 3, 0x10, 0, 1, 1, 7, 4, 0, 0, 0];

/// Answer, reply, state and memory of one exchange over old octets.
type Left = (u64, [u8; 16], [u8; 11], [u8; 18]);

fn after(state: [u8; 11], command: [u8; 16]) -> Left {
    let (mut state, mut memory, mut reply) = (state, MEMORY, [0xEE; 16]);
    let answer = exchange(&sheet(), &mut state, &mut memory, &command, &mut reply);
    (answer, reply, state, memory)
}

/// The state with its command latch set.
fn latched(state: [u8; 11], alarm: u8) -> [u8; 11] {
    let mut latched = state;
    latched[8] = alarm;
    latched
}

/// Code, three reserve octets, the fields, and WDT 00.
pub fn command(code: u8, fields: &[u8]) -> [u8; 16] {
    let mut command = [0; 16];
    command[0] = code;
    command[4..4 + fields.len()].copy_from_slice(fields);
    command
}

/// What a refused command leaves in link 2, with the place told of it.
fn refused(code: u8, alarm: u8, place: u64) -> Left {
    let reply = [code, alarm, 5, 0, 0, 0, 0, 0, 0, 0, 0, 0, 0, 0, 0, 0];
    (place << 32, reply, latched(ASYNC, alarm), MEMORY)
}

#[test]
fn nop() {
    let told = [0, 0, 4, 0, 0, 0, 0, 0, 0, 0, 0, 0, 0, 0, 0, 0];
    assert_eq!(
        after(DISCONNECTED, command(0x00, &[])),
        (0, told, DISCONNECTED, MEMORY)
    );
    assert_eq!(after(ASYNC, [0; 16]), (0, told, ASYNC, MEMORY));
    let asked = [0, 0, 0, 0, 0, 0, 0, 0, 0, 0, 0, 0, 0, 0, 0, 0x48];
    let told = [0, 0, 4, 0, 0, 0, 0, 0, 0, 0, 0, 0, 0, 0, 0, 0x58];
    let next = [0x12, 3, 0x10, 0, 1, 1, 8, 5, 0, 0, 0];
    assert_eq!(after(SYNC, asked), (0, told, next, MEMORY));
}

#[test]
fn prm_rd() {
    let told = [1, 0, 4, 0, 7, 0, 2, 0x0C, 0x0D, 0, 0, 0, 0, 0, 0, 0];
    assert_eq!(
        after(ASYNC, command(0x01, &[7, 0, 2])),
        (0, told, ASYNC, MEMORY)
    );
    // Eight octets are up to the octet before RWDT.
    let told = [
        1, 0, 4, 0, 8, 0, 8, 0x12, 0x13, 0x14, 0x15, 0x16, 0x17, 0x18, 0x19, 0,
    ];
    assert_eq!(
        after(ASYNC, command(0x01, &[8, 0, 8])),
        (0, told, ASYNC, MEMORY)
    );
    let asked = [1, 0, 0, 0, 8, 0, 8, 0, 0, 0, 0, 0, 0, 0, 0, 0x48];
    let told = [
        1, 0, 4, 0, 8, 0, 8, 0x12, 0x13, 0x14, 0x15, 0x16, 0x17, 0x18, 0x19, 0x58,
    ];
    assert_eq!(after(SYNC, asked).1, told);
}

#[test]
fn prm_wr() {
    let asked = [
        2, 0, 0, 0, 8, 0, 8, 0x31, 0x32, 0x33, 0x34, 0x35, 0x36, 0x37, 0x38, 0x48,
    ];
    let told = [
        2, 0, 4, 0, 8, 0, 8, 0x31, 0x32, 0x33, 0x34, 0x35, 0x36, 0x37, 0x38, 0x58,
    ];
    let stored = [
        0x0A, 0x0B, 0x0C, 0x0D, 0x0E, 0x0F, 0x10, 0x11, 0x31, 0x32, 0x33, 0x34, 0x35, 0x36, 0x37,
        0x38, 0x1A, 0x1B,
    ];
    let next = [0x12, 3, 0x10, 0, 1, 1, 8, 5, 0, 0, 0];
    assert_eq!(after(SYNC, asked), (0, told, next, stored));
    let asked = [
        2, 0, 0, 0, 7, 0, 2, 0x31, 0x32, 0xEE, 0xEE, 0xEE, 0xEE, 0xEE, 0xEE, 0xEE,
    ];
    let told = [2, 0, 4, 0, 7, 0, 2, 0x31, 0x32, 0, 0, 0, 0, 0, 0, 0];
    let mut stored = MEMORY;
    stored[2..4].copy_from_slice(&[0x31, 0x32]);
    assert_eq!(after(ASYNC, asked), (0, told, ASYNC, stored));
}

#[test]
fn id_rd() {
    let told = [
        3, 0, 4, 0, 1, 1, 8, 0x22, 0x23, 0x24, 0x25, 0x26, 0x27, 0x28, 0x29, 0,
    ];
    assert_eq!(
        after(ASYNC, command(0x03, &[1, 1, 8])),
        (0, told, ASYNC, MEMORY)
    );
    let told = [3, 0, 4, 0, 1, 8, 1, 0x29, 0, 0, 0, 0, 0, 0, 0, 0];
    assert_eq!(
        after(ASYNC, command(0x03, &[1, 8, 1])),
        (0, told, ASYNC, MEMORY)
    );
    // Octet 7 is no part of the size.
    assert_eq!(
        after(ASYNC, command(0x03, &[1, 8, 1, 1])),
        (0, told, ASYNC, MEMORY)
    );
}

#[test]
fn alm_rd() {
    let told = [5, 0, 4, 0, 0, 0, 0, 0, 0, 0, 0, 0, 0, 0, 0, 0];
    assert_eq!(after(ASYNC, command(0x05, &[])), (0, told, ASYNC, MEMORY));
    let both = [0x12, 2, 0x10, 0, 1, 0, 0, 0, 10, 12, 0];
    let told = [5, 0, 5, 0xC0, 0, 10, 12, 0, 0, 0, 0, 0, 0, 0, 0, 0];
    assert_eq!(after(both, command(0x05, &[])), (0, told, both, MEMORY));
    assert_eq!(
        after(both, command(0x05, &[0, 0xFF, 0xFF])),
        (0, told, both, MEMORY)
    );
}

#[test]
fn alm_clr() {
    let both = [0x12, 2, 0x10, 0, 1, 0, 0, 0, 10, 12, 0];
    let told = [6, 0, 4, 0, 0, 0, 0, 0, 0, 0, 0, 0, 0, 0, 0, 0];
    assert_eq!(after(both, command(0x06, &[])), (0, told, ASYNC, MEMORY));
    assert_eq!(
        after(both, command(0x06, &[0, 0xFF])),
        (0, told, ASYNC, MEMORY)
    );
}

#[test]
fn sync_set() {
    let asked = [0x0D, 0, 0, 0, 0, 0, 0, 0, 0, 0, 0, 0, 0, 0, 0, 0x93];
    let told = [0x0D, 0, 4, 0, 0, 0, 0, 0, 0, 0, 0, 0, 0, 0, 0, 0x03];
    let next = [0x12, 3, 0x10, 0, 1, 0, 0, 0, 0, 0, 0];
    assert_eq!(after(ASYNC, asked), (0, told, next, MEMORY));
}

/// Octet 7 is a reserve: the profile is not named, not checked and not told.
#[test]
fn connect() {
    for octet_7 in [0x00, 0x05, 0xFF] {
        let told = [0x0E, 0, 4, 0, 0x30, 0, 1, 0, 0, 0, 0, 0, 0, 0, 0, 0];
        let asked = command(0x0E, &[0x30, 0, 1, octet_7]);
        assert_eq!(after(DISCONNECTED, asked), (0, told, ASYNC, MEMORY));
    }
    let mut asked = command(0x0E, &[0x30, 6, 2]);
    asked[15] = 0x79;
    let told = [0x0E, 0, 4, 0, 0x30, 6, 2, 0, 0, 0, 0, 0, 0, 0, 0, 0x09];
    let next = [0x12, 3, 0x10, 1, 2, 0, 0, 0, 0, 0, 0];
    assert_eq!(after(DISCONNECTED, asked), (0, told, next, MEMORY));
}

#[test]
fn disconnect() {
    let told = [0x0F, 0, 4, 0, 0, 0, 0, 0, 0, 0, 0, 0, 0, 0, 0, 0];
    assert_eq!(
        after(ASYNC, command(0x0F, &[])),
        (0, told, DISCONNECTED, MEMORY)
    );
    let mut asked = command(0x0F, &[]);
    asked[15] = 0x48;
    assert_eq!(after(SYNC, asked), (0, told, DISCONNECTED, MEMORY));
}

/// The memory commands of the enhanced type among them, in every link.
#[test]
fn alarm_8() {
    let known = [0x00, 0x01, 0x02, 0x03, 0x05, 0x06, 0x0D, 0x0E, 0x0F];
    for code in (0..=255).filter(|code| !known.contains(code)) {
        assert_eq!(
            after(ASYNC, command(code, &[0, 0x11, 1])),
            refused(code, 8, 0)
        );
        let told = [code, 8, 5, 0, 0, 0, 0, 0, 0, 0, 0, 0, 0, 0, 0, 0];
        let next = latched(DISCONNECTED, 8);
        assert_eq!(
            after(DISCONNECTED, command(code, &[])),
            (0, told, next, MEMORY)
        );
    }
    let asked = [0x1D, 0, 0, 0, 0, 0x11, 1, 0, 0, 0x10, 0, 0, 0, 0, 0, 0x48];
    let told = [0x1D, 8, 5, 0, 0, 0, 0, 0, 0, 0, 0, 0, 0, 0, 0, 0x58];
    let next = [0x12, 3, 0x10, 0, 1, 1, 8, 5, 8, 0, 0];
    assert_eq!(after(SYNC, asked), (0, told, next, MEMORY));
}

#[test]
fn alarm_9() {
    assert_eq!(after(ASYNC, command(0x01, &[6, 0, 2])), refused(1, 9, 4));
    assert_eq!(after(ASYNC, command(0x02, &[7, 0, 3])), refused(2, 9, 6));
    assert_eq!(after(ASYNC, command(0x01, &[9, 0, 9])), refused(1, 9, 6));
    assert_eq!(after(ASYNC, command(0x03, &[1, 0, 9])), refused(3, 9, 6));
    assert_eq!(after(ASYNC, command(0x05, &[1])), refused(5, 9, 4));
    assert_eq!(after(ASYNC, command(0x06, &[1])), refused(6, 9, 4));
    let told = [0x0E, 9, 5, 0, 0, 0, 0, 0, 0, 0, 0, 0, 0, 0, 0, 0];
    let next = latched(DISCONNECTED, 9);
    let asked = command(0x0E, &[0x30, 4, 1]);
    assert_eq!(after(DISCONNECTED, asked), (5 << 32, told, next, MEMORY));
}

/// Parameter 11 has two octets that may be read before two that may not; 10 has three.
#[test]
fn alarm_10() {
    assert_eq!(after(ASYNC, command(0x01, &[11, 1, 4])), refused(1, 10, 2));
    assert_eq!(after(ASYNC, command(0x01, &[10, 0, 8])), refused(1, 10, 3));
    let asked = [2, 0, 0, 0, 10, 0, 8, 1, 2, 3, 4, 5, 6, 7, 8, 0x48];
    let told = [2, 10, 5, 0, 0, 0, 0, 0, 0, 0, 0, 0, 0, 0, 0, 0x58];
    let next = [0x12, 3, 0x10, 0, 1, 1, 8, 5, 10, 0, 0];
    assert_eq!(after(SYNC, asked), (0, told, next, MEMORY));
}

#[test]
fn alarm_12() {
    assert_eq!(
        after(ASYNC, command(0x0E, &[0x30, 0, 1])),
        refused(0x0E, 12, 0)
    );
    for code in [0x01, 0x02, 0x03, 0x05, 0x06, 0x0D] {
        let told = [code, 12, 5, 0, 0, 0, 0, 0, 0, 0, 0, 0, 0, 0, 0, 0];
        let next = latched(DISCONNECTED, 12);
        assert_eq!(
            after(DISCONNECTED, command(code, &[7, 0, 2])),
            (0, told, next, MEMORY)
        );
    }
    let asked = [0x0D, 0, 0, 0, 0, 0, 0, 0, 0, 0, 0, 0, 0, 0, 0, 0x48];
    let told = [0x0D, 12, 5, 0, 0, 0, 0, 0, 0, 0, 0, 0, 0, 0, 0, 0x58];
    assert_eq!(after(SYNC, asked).1, told);
}

/// A lost cycle: the communication latch stands in octet 3, the alarm is 0 and so is RWDT.
#[test]
fn communication_alarm_12() {
    let asked = [1, 0x48, 0, 0, 8, 0, 8, 0, 0, 0, 0, 0, 0, 0, 0, 0x47];
    let told = [1, 0, 5, 0xC0, 0, 0, 0, 0, 0, 0, 0, 0, 0, 0, 0, 0];
    let next = [0x12, 2, 0x10, 0, 1, 0, 0, 0, 0, 12, 0];
    assert_eq!(after(SYNC, asked), (0, told, next, MEMORY));
    // Then a refused command has both, each in its own octet.
    let told = [0x77, 8, 5, 0xC0, 0, 0, 0, 0, 0, 0, 0, 0, 0, 0, 0, 0];
    let both = [0x12, 2, 0x10, 0, 1, 0, 0, 0, 8, 12, 0];
    assert_eq!(after(next, command(0x77, &[])), (0, told, both, MEMORY));
}
