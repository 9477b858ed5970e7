//! Request 13: a reserved octet beside every other fault of a command, of which the first check is told.

use super::exchange;
use super::memory_mode;

const DISCONNECTED: [u8; 11] = [0x12, 1, 16, 0, 0, 0, 0, 0, 0, 0, 0];
const ASYNC: [u8; 11] = [0x12, 2, 16, 0, 5, 0, 0, 0, 0, 0, 0];
const SYNC: [u8; 11] = [0x12, 3, 16, 1, 5, 1, 7, 4, 0, 0, 0];
/// The WDT that `SYNC` asks for.
const NEXT: u8 = 0x48;

/// Two octets with all rights and four with none; parameters over both; an item of four octets; this tolerance.
fn sheet(tolerance: u8) -> Vec<u8> {
    let mut octets = vec![1, 16, 3, 4];
    octets.extend([2, 0x10, 0, 0, 0, 2, 0, 0, 0, 7]);
    octets.extend([2, 0x12, 0, 0, 0, 4, 0, 0, 0, 0]);
    octets.extend([3, 1, 1, 0x10, 0, 0, 0, 2]);
    octets.extend([3, 2, 1, 0x11, 0, 0, 0, 3]);
    octets.extend([4, 9, 4, 0x61, 0x62, 0x63, 0x64]);
    octets.extend([0; 28]);
    octets.extend([6, tolerance, 7, 2, 0]);
    octets
}

/// Answer, reply and state of one exchange.
fn left(tolerance: u8, state: [u8; 11], command: [u8; 16]) -> (u64, [u8; 16], [u8; 11]) {
    let (mut state, mut memory, mut reply) = (state, [0x33; 6], [0xEE; 16]);
    let sheet = sheet(tolerance);
    let answer = exchange(&sheet, &mut state, &mut memory, &command, &mut reply);
    (answer, reply, state)
}

/// Code and octets from 4 on, with the WDT that `SYNC` asks for.
fn command(code: u8, body: &[u8]) -> [u8; 16] {
    let mut command = [0; 16];
    command[..2].copy_from_slice(&[code, NEXT]);
    command[4..4 + body.len()].copy_from_slice(body);
    command
}

fn memory(code: u8, mode: u8, count: u16, address: u32) -> [u8; 16] {
    let mut command = command(code, &[0, mode]);
    command[6..8].copy_from_slice(&count.to_le_bytes());
    command[8..12].copy_from_slice(&address.to_le_bytes());
    command
}

/// Alarm and place in link 2 and, the same, in link 3.
fn told(command: [u8; 16]) -> (u8, u64) {
    let [one, other] = [ASYNC, SYNC].map(|state| {
        let (answer, reply, _) = left(0, state, command);
        assert_eq!(answer as u32, 0);
        (reply[3] & 15, answer >> 32)
    });
    assert_eq!(one, other);
    one
}

/// The same with this reserved octet set.
fn told_with(mut command: [u8; 16], at: usize) -> (u8, u64) {
    assert_eq!(command[at], 0);
    command[at] = 4;
    told(command)
}

/// Octets 2 and 3 stand before each field that fails, but are asked behind them all.
#[test]
fn every_field_comes_before_every_reserved_octet() {
    let octets = memory_mode::octet(1);
    for (failing, place, reserved) in [
        (command(0x01, &[3, 1, 2]), 4, &[2, 3, 7, 15][..]),
        (command(0x01, &[1, 1, 3]), 6, &[2, 3, 7, 15]),
        (command(0x02, &[1, 2, 2]), 4, &[2, 3, 7, 15]),
        (command(0x02, &[1, 1, 1]), 6, &[2, 3, 7, 9, 15]),
        (command(0x03, &[8, 0, 1]), 4, &[2, 3, 8, 15]),
        (command(0x03, &[9, 1, 4]), 6, &[2, 3, 8, 15]),
        (command(0x03, &[9, 0, 0]), 6, &[2, 3, 8, 15]),
        (command(0x05, &[1, 0]), 4, &[2, 3, 6, 15]),
        (command(0x06, &[0, 1]), 4, &[2, 3, 6, 15]),
        (memory(0x1D, 0x10, 1, 0x10), 5, &[2, 3, 4, 12, 15]),
        (memory(0x1D, octets, 0, 0x10), 6, &[2, 3, 4, 12, 15]),
        (memory(0x1E, octets, 5, 0x10), 6, &[2, 3, 4]),
        (memory(0x1D, octets, 1, 0x0F), 8, &[2, 3, 4, 12, 15]),
        (memory(0x1E, octets, 1, 0x16), 8, &[2, 3, 4, 13, 15]),
    ] {
        assert_eq!(told(failing), (9, place));
        for &at in reserved {
            assert_eq!(told_with(failing, at), (9, place));
        }
    }
}

#[test]
fn every_field_of_connect_comes_before_every_reserved_octet() {
    for (fields, place) in [
        ([2, 2, 1, 4], 4),
        ([3, 4, 1, 4], 5),
        ([3, 2, 0, 4], 6),
        ([3, 6, 1, 4], 6),
        ([3, 2, 1, 5], 7),
    ] {
        for at in [2, 3, 8, 15] {
            let mut failing = command(0x0E, &fields);
            failing[at] = 1;
            let (answer, reply, state) = left(0, DISCONNECTED, failing);
            assert_eq!((answer, reply[3]), (place << 32, 9));
            assert_eq!((state[1], state[8]), (1, 9));
        }
    }
}

/// Every octet lacks the right, or the span's second one does.
#[test]
fn every_reserved_octet_comes_before_the_rights() {
    let octets = memory_mode::octet(1);
    for (lacking, place, reserved) in [
        (command(0x01, &[2, 1, 3]), 1, &[2, 3, 7, 8, 15][..]),
        (command(0x02, &[2, 1, 3]), 1, &[2, 3, 7, 11, 15]),
        (memory(0x1D, octets, 1, 0x12), 0, &[2, 3, 4, 12, 15]),
        (memory(0x1D, octets, 4, 0x11), 1, &[2, 3, 4, 12, 15]),
        (memory(0x1E, octets, 1, 0x12), 0, &[2, 3, 4, 13, 15]),
        (memory(0x1E, octets, 4, 0x11), 1, &[2, 3, 4]),
    ] {
        assert_eq!(told(lacking), (10, place));
        for &at in reserved {
            assert_eq!(told_with(lacking, at), (9, at as u64));
        }
    }
}

/// Alarms 8 and 12 have place 0, whatever the octets hold.
#[test]
fn code_and_link_come_before_every_reserved_octet() {
    for at in 2..16 {
        for code in [0x04, 0x20, 0x77, 0xFF] {
            assert_eq!(told_with(command(code, &[]), at), (8, 0));
        }
        assert_eq!(told_with(command(0x0E, &[]), at), (12, 0));
        for code in [1, 2, 3, 5, 6, 0x0D, 0x1D, 0x1E] {
            let mut octets = command(code, &[]);
            octets[at] = 4;
            let (answer, reply, _) = left(0, DISCONNECTED, octets);
            assert_eq!((answer, reply[3]), (0, 12));
        }
    }
}

/// A failed cycle does not look at the command, whether it is tolerated or not.
#[test]
fn the_watchdog_comes_before_every_reserved_octet() {
    for at in 2..16 {
        for wdt in [0x49, 0x58, 0x00] {
            let mut octets = command(0x00, &[]);
            octets[1] = wdt;
            octets[at] = 0x80;
            let status = if at == 2 { 0x80 } else { 0 };
            let (answer, reply, state) = left(0, SYNC, octets);
            assert_eq!((answer, &reply[2..4]), (0, &[5 | status, 0xC0][..]));
            assert_eq!(state, [0x12, 2, 16, 0, 5, 0, 0, 0, 0, 12, 0]);
            octets[2] |= 0x3F;
            let (answer, reply, state) = left(1, SYNC, octets);
            assert_eq!((answer, &reply[2..4]), (0, &[6 | status, 0][..]));
            assert_eq!(state, [0x12, 3, 16, 1, 5, 1, wdt & 15, 5, 0, 0, 1]);
        }
    }
}

/// A refused command is an exchange as any other: it is counted, and the first alarm stays latched.
#[test]
fn a_refusal_is_latched_and_counted() {
    for before in [0, 8, 9, 10, 12] {
        let mut state = SYNC;
        (state[8], state[10]) = (before, 1);
        let mut octets = command(0x0F, &[]);
        octets[3] = 1;
        let (answer, reply, next) = left(1, state, octets);
        let latch = if before == 0 { 9 } else { before };
        assert_eq!(answer, 3 << 32);
        assert_eq!(reply[..4], [0x0F, 0x58, 5, 9]);
        assert_eq!(next, [0x12, 3, 16, 1, 5, 1, 8, 5, latch, 0, 0]);
    }
}

/// At L 8 ALM_RD has no room, memory commands and parameters fail at their size at the latest.
#[test]
fn at_l_8_the_size_comes_first() {
    let sheet = [&[1, 8][..], &sheet(0)[2..]].concat();
    let octets = memory_mode::octet(1);
    for (code, body, place) in [
        (0x05, [0, 0, 0, 1], 0),
        (0x05, [1, 0, 1, 1], 0),
        (0x06, [1, 0, 1, 1], 4),
        (0x06, [0, 0, 0, 1], 7),
        (0x01, [1, 1, 2, 1], 6),
        (0x02, [1, 1, 2, 1], 6),
        (0x03, [9, 0, 1, 0], 6),
        (0x1D, [1, octets, 1, 0], 6),
        (0x1E, [1, 0x10, 1, 0], 5),
        (0x00, [0, 0, 0, 1], 7),
        (0x0D, [1, 0, 0, 1], 4),
        (0x0F, [0, 1, 0, 1], 5),
    ] {
        let mut state = ASYNC;
        state[2] = 8;
        let mut command = [code, 0, 0, 0, 0, 0, 0, 0];
        command[4..].copy_from_slice(&body);
        let mut reply = [0; 8];
        let answer = exchange(&sheet, &mut state, &mut [0; 6], &command, &mut reply);
        assert_eq!((answer, reply[3]), (place << 32, 9));
        // Octet 3 is asked behind the fields, and before what else is reserved.
        command[3] = 1;
        let answer = exchange(&sheet, &mut state, &mut [0; 6], &command, &mut reply);
        let size_or_mode = [1, 2, 3, 5, 0x1D, 0x1E].contains(&code) || (code == 6 && place == 4);
        assert_eq!(answer >> 32, if size_or_mode { place } else { 3 });
    }
}
