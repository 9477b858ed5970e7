//! Request 1: bits 6 and 7 of command octet 2 come back in every built reply,
//! and all other bits of octets 2 and 3 change nothing.

use super::{exchange, replay};

/// L 16, version 3, profile 4; four octets that link 2 may read but not write.
const SHEET: [u8; 15] = [1, 16, 3, 4, 2, 0, 0, 0, 0, 4, 0, 0, 0, 5, 0];
const MEMORY: [u8; 4] = [0x31, 0x32, 0x33, 0x34];
const ASYNC: [u8; 11] = [0x12, 2, 16, 0, 5, 0, 0, 0, 0, 0, 0];
const SYNC: [u8; 11] = [0x12, 3, 16, 1, 5, 1, 7, 4, 0, 0, 0];
const DISCONNECTED: [u8; 11] = [0x12, 1, 16, 0, 0, 0, 0, 0, 0, 0, 0];
/// The WDT that `SYNC` asks for, and two that lose the cycle, by MN and by SN.
const NEXT: u8 = 0x48;
const LOST: [u8; 2] = [0x49, 0x58];

/// Reply, state and memory after one exchange over old octets.
type Left = ([u8; 16], [u8; 11], [u8; 4]);

fn after(state: [u8; 11], command: &[u8; 16]) -> Left {
    let (mut state, mut memory, mut reply) = (state, MEMORY, [0xEE; 16]);
    let answer = exchange(&SHEET, &mut state, &mut memory, command, &mut reply);
    assert_eq!(answer as u32, 0);
    (reply, state, memory)
}

fn command(octets: &[u8]) -> [u8; 16] {
    let mut command = [0; 16];
    command[..octets.len()].copy_from_slice(octets);
    command
}

fn memory_command(code: u8, wdt: u8) -> [u8; 16] {
    command(&[code, wdt, 0, 0, 0, 0x11, 2, 0, 1, 0, 0, 0, 0x71, 0x72])
}

/// Every octet 2 with every octet 3: the status without identity is the one
/// expected, and the rest is what zeros in both octets give.
fn echoes_alone(state: [u8; 11], command: [u8; 16], status: [u8; 2]) {
    let zero = after(state, &command);
    assert_eq!(zero.0[2..4], status);
    for control in 0..=u16::MAX {
        let mut changed = command;
        changed[2..4].copy_from_slice(&control.to_le_bytes());
        let mut expected = zero;
        expected.0[2] = status[0] | changed[2] & 0xC0;
        assert_eq!(after(state, &changed), expected, "control {control:04X}");
    }
}

#[test]
fn an_accepted_command_gets_its_identity_back() {
    echoes_alone(DISCONNECTED, command(&[0x00]), [4, 0]);
    let connect = command(&[0x0E, 0, 0, 0, 3, 2, 1, 4]);
    echoes_alone(DISCONNECTED, connect, [4, 0]);
    echoes_alone(ASYNC, command(&[0x0D]), [4, 0]);
    echoes_alone(ASYNC, memory_command(0x1D, 0), [4, 0]);
    echoes_alone(SYNC, memory_command(0x1E, NEXT), [4, 0]);
    echoes_alone(SYNC, command(&[0x0F, NEXT]), [4, 0]);
}

#[test]
fn a_refused_command_gets_its_identity_back() {
    for (state, wdt) in [(ASYNC, 0), (SYNC, NEXT)] {
        echoes_alone(state, command(&[0x77, wdt]), [5, 8]);
        echoes_alone(state, command(&[0x06, wdt, 0, 0, 1]), [5, 9]);
        echoes_alone(state, command(&[0x0E, wdt]), [5, 12]);
    }
    echoes_alone(ASYNC, memory_command(0x1E, 0), [5, 10]);
}

#[test]
fn a_lost_cycle_gives_the_identity_back() {
    for wdt in LOST {
        echoes_alone(SYNC, command(&[0x00, wdt]), [5, 0xC0]);
        echoes_alone(SYNC, command(&[0x77, wdt]), [5, 0xC0]);
        echoes_alone(SYNC, memory_command(0x1E, wdt), [5, 0xC0]);
    }
}

#[test]
fn the_identity_stands_beside_both_latches() {
    let mut latched = ASYNC;
    latched[8..10].copy_from_slice(&[10, 12]);
    echoes_alone(latched, command(&[0x00]), [5, 0xC0]);
    echoes_alone(latched, command(&[0x06]), [4, 0]);
    echoes_alone(latched, command(&[0x77]), [5, 0xC8]);
}

/// One accepted, one refused and one lost exchange as a trace, with this octet 2.
fn trace_of(octet_2: u8) -> Vec<u8> {
    let (mut trace, mut state, mut memory) = (Vec::new(), SYNC, MEMORY);
    for octets in [[0x00, NEXT], [0x77, NEXT + 0x11], [0x00, NEXT]] {
        let asked = command(&[octets[0], octets[1], octet_2]);
        let mut reply = [0; 16];
        let answer = exchange(&SHEET, &mut state, &mut memory, &asked, &mut reply);
        assert_eq!((answer as u32, reply[2] & 0xC0), (0, octet_2 & 0xC0));
        trace.push(0x22);
        trace.extend(asked);
        trace.extend(reply);
    }
    trace
}

#[test]
fn a_replay_asks_for_the_identity_and_ignores_the_other_bits() {
    let replayed = |trace: &[u8]| replay(&SHEET, &mut SYNC.clone(), &mut MEMORY.clone(), trace);
    for identity in [0x00, 0x40, 0x80, 0xC0] {
        let trace = trace_of(identity);
        assert_eq!(replayed(&trace), 3 << 32);
        for record in 0..3 {
            for octet_2 in 0..=255 {
                let mut changed = trace.clone();
                changed[record * 33 + 3] = octet_2;
                changed[record * 33 + 4] = !octet_2;
                let told = if octet_2 & 0xC0 == identity {
                    3 << 32
                } else {
                    34 | (record as u64 * 64 + 2) << 32
                };
                assert_eq!(replayed(&changed), told);
            }
        }
    }
}
