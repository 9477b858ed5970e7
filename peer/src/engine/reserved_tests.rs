//! Request 13: every octet of every command of the enhanced type under both releases.

use super::memory_mode;
use super::{exchange, replay};

const LENGTHS: [usize; 5] = [8, 16, 32, 48, 64];
const MEMORY: usize = 64;
const DISCONNECTED: [u8; 8] = [1, 0, 0, 0, 0, 0, 0, 0];
const ASYNC: [u8; 8] = [2, 0, 5, 0, 0, 0, 0, 0];
const SYNC: [u8; 8] = [3, 1, 5, 1, 7, 4, 0, 0];
/// The WDT that `SYNC` asks for.
const NEXT: u8 = 0x48;

/// 64 octets with all rights; parameters 101 to 138 hex of 1 to 56 octets; an item of 32.
fn sheet(pdu_length: usize, release: u8) -> Vec<u8> {
    let mut octets = vec![1, pdu_length as u8, 3, 4];
    octets.extend([2, 0, 0, 0, 0, MEMORY as u8, 0, 0, 0, 7]);
    for size in 1..=56 {
        octets.extend([3, size, 1, 0, 0, 0, 0, size]);
    }
    octets.extend([4, 9, 32]);
    octets.extend(0x61..=0x80);
    octets.extend([7, release, 0]);
    octets
}

fn record(pdu_length: usize, state: [u8; 8]) -> [u8; 11] {
    let [link, dual, com_time, known, mn, rsn, one, other] = state;
    let length = pdu_length as u8;
    [
        0x12, link, length, dual, com_time, known, mn, rsn, one, other, 0,
    ]
}

/// Alarm and place; a refused command leaves the memory and has a zero body.
fn told(release: u8, state: [u8; 8], command: &[u8]) -> (u8, u64) {
    let length = command.len();
    let (mut record, mut memory) = (record(length, state), [0x33; MEMORY]);
    let mut reply = vec![0xEE; length];
    let sheet = sheet(length, release);
    let answer = exchange(&sheet, &mut record, &mut memory, command, &mut reply);
    let alarm = reply[3] & 15;
    assert_eq!((answer as u32, reply[2] & 0xC0), (0, command[2] & 0xC0));
    if alarm != 0 {
        assert!(memory == [0x33; MEMORY] && reply[4..].iter().all(|&octet| octet == 0));
        assert_eq!(record[8], alarm);
    }
    (alarm, answer >> 32)
}

/// A command, the link that takes it, and which octets it names behind octet 3.
struct Case {
    state: [u8; 8],
    command: Vec<u8>,
    named: Vec<std::ops::Range<usize>>,
}

fn case(
    pdu_length: usize,
    code: u8,
    at: usize,
    fields: &[u8],
    data: std::ops::Range<usize>,
) -> Case {
    let state = match code {
        0x0E => DISCONNECTED,
        0x0D => ASYNC,
        _ => SYNC,
    };
    let mut command = vec![0; pdu_length];
    command[0] = code;
    command[1] = NEXT;
    command[at..at + fields.len()].copy_from_slice(fields);
    command[data.clone()].fill(0xD7);
    Case {
        state,
        command,
        named: vec![at..at + fields.len(), data],
    }
}

/// Every code, with the smallest and the largest data of this L.
fn cases(length: usize) -> Vec<Case> {
    let mut cases = vec![
        case(length, 0x00, 4, &[], 4..4),
        case(length, 0x06, 4, &[0, 0], 6..6),
        case(length, 0x0D, 4, &[], 4..4),
        case(length, 0x0E, 4, &[3, 2, 1, 4], 8..8),
        case(length, 0x0F, 4, &[], 4..4),
    ];
    if length == 8 {
        return cases;
    }
    cases.push(case(length, 0x05, 4, &[0, 0], 6..6));
    for size in [1, 8.min(length - 8), length - 8] {
        let own = size as u8;
        cases.push(case(length, 0x01, 4, &[own, 1, own], 7..7));
        cases.push(case(length, 0x02, 4, &[own, 1, own], 8..8 + size));
        let id_size = own.min(32);
        cases.push(case(length, 0x03, 4, &[9, 0, id_size, 0], 8..8));
    }
    for (code, element) in [(1, 1), (2, 2), (3, 4)] {
        for count in [1, (length - 12) / element] {
            let mode = memory_mode::octet(code);
            let fields = [mode, count as u8, 0, 0, 0, 0, 0];
            let data = 12..12 + count * element;
            cases.push(case(length, 0x1D, 5, &fields, 12..12));
            cases.push(case(length, 0x1E, 5, &fields, data));
        }
    }
    cases
}

/// Zero everywhere else, each command is accepted under both releases, with each identity.
#[test]
fn what_is_named_is_not_asked() {
    for case in LENGTHS.into_iter().flat_map(cases) {
        for identity in [0, 0x40, 0x80, 0xC0] {
            let mut command = case.command.clone();
            command[2] = identity;
            assert_eq!(told(1, case.state, &command), (0, 0));
            assert_eq!(told(2, case.state, &command), (0, 0));
        }
    }
}

#[test]
fn each_other_octet_is_asked_alone_and_with_all_behind_it() {
    for case in LENGTHS.into_iter().flat_map(cases) {
        let named = |at: usize| case.named.iter().any(|part| part.contains(&at));
        for at in (2..case.command.len()).filter(|&at| !named(at)) {
            let bits = if at == 2 { 0..6 } else { 0..8 };
            for octet in bits.map(|bit| 1 << bit) {
                let mut command = case.command.clone();
                command[at] = octet;
                assert_eq!(told(1, case.state, &command), (0, 0));
                assert_eq!(told(2, case.state, &command), (9, at as u64));
                for later in (at + 1..command.len()).filter(|&at| !named(at)) {
                    command[later] = 0xFF;
                }
                assert_eq!(told(1, case.state, &command), (0, 0));
                assert_eq!(told(2, case.state, &command), (9, at as u64));
            }
        }
    }
}

#[test]
fn of_octet_2_the_identity_alone_may_be_set() {
    for case in LENGTHS.into_iter().flat_map(cases) {
        for octet in 0..=255 {
            let mut command = case.command.clone();
            command[2] = octet;
            let expected = if octet & 0x3F == 0 { (0, 0) } else { (9, 2) };
            assert_eq!(told(2, case.state, &command), expected);
        }
    }
}

/// In link 2 WDT may be anything, and is never reserved.
#[test]
fn wdt_is_named() {
    for length in LENGTHS {
        for wdt in 0..=255 {
            let mut command = vec![0; length];
            command[1] = wdt;
            assert_eq!(told(2, ASYNC, &command), (0, 0));
        }
    }
}

/// Accepted and refused records agree, and in the other release they do not.
#[test]
fn a_replay_asks_what_an_exchange_does() {
    for length in &LENGTHS[1..] {
        let (mut state, mut memory, mut trace) = (record(*length, ASYNC), [0; MEMORY], Vec::new());
        for (at, octet) in [(2, 0x80), (length - 1, 1)] {
            let (mut command, mut reply) = (vec![0; *length], vec![0; *length]);
            command[at] = octet;
            let octets = sheet(*length, 2);
            exchange(&octets, &mut state, &mut memory, &command, &mut reply);
            trace.push(0x21 + (length / 16) as u8);
            trace.extend([command, reply].concat());
        }
        for (release, answer) in [(2, 2 << 32), (1, 34 | (64 + 2) << 32)] {
            let mut state = record(*length, ASYNC);
            let octets = sheet(*length, release);
            assert_eq!(replay(&octets, &mut state, &mut memory, &trace), answer);
            assert_eq!(state[8], if release == 2 { 9 } else { 0 });
        }
    }
}
