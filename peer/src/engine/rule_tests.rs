//! Rules of document 01 that no bench case shows.

use super::sheet::Sheet;
use super::state::State;
use super::{enable, exchange, memory_mode, reset};

/// L 16, version 3, profile 4; regions at both ends of the addresses, and one item.
fn sheet() -> Vec<u8> {
    let mut octets = vec![1, 16, 3, 4];
    octets.extend([2, 0, 0, 0, 0, 4, 0, 0, 0, 7]);
    octets.extend([2, 0xFC, 0xFF, 0xFF, 0xFF, 4, 0, 0, 0, 7]);
    octets.extend([4, 9, 3, 0x71, 0x72, 0x73]);
    octets.extend([0; 29]);
    octets.push(0);
    octets
}

const ASYNC: [u8; 11] = [0x12, 2, 16, 0, 5, 0, 0, 0, 0, 0, 0];
const SYNC: [u8; 11] = [0x12, 3, 16, 1, 5, 1, 7, 4, 0, 0, 0];
/// The WDT that `SYNC` asks for.
const NEXT: u8 = 0x48;
const DISCONNECTED: [u8; 11] = [0x12, 1, 16, 0, 0, 0, 0, 0, 0, 0, 0];

/// Reply and state after one exchange over a zero memory.
fn after(state: [u8; 11], octets: &[u8]) -> ([u8; 16], [u8; 11]) {
    let (mut state, mut memory, mut reply) = (state, [0; 8], [0xEE; 16]);
    let mut command = [0; 16];
    command[..octets.len()].copy_from_slice(octets);
    let answer = exchange(&sheet(), &mut state, &mut memory, &command, &mut reply);
    assert_eq!(answer as u32, 0);
    (reply, state)
}

/// The alarm of one exchange.
fn alarm(state: [u8; 11], octets: &[u8]) -> u8 {
    after(state, octets).0[3] & 15
}

#[test]
fn disconnect_from_link_3_keeps_the_latches() {
    let mut start = SYNC;
    start[8] = 9;
    let (reply, state) = after(start, &[0x0F, NEXT]);
    assert_eq!(reply[..4], [0x0F, 0, 5, 0]);
    assert_eq!(state, [0x12, 1, 16, 0, 0, 0, 0, 0, 9, 0, 0]);
}

#[test]
fn a_lost_cycle_is_told_before_anything_else() {
    for code in 0..=255 {
        let (reply, state) = after(SYNC, &[code, 0x47]);
        assert_eq!(reply[..4], [code, 0, 5, 0xC0]);
        assert_eq!(reply[4..], [0; 12]);
        assert_eq!(state, [0x12, 2, 16, 0, 5, 0, 0, 0, 0, 12, 0]);
    }
}

#[test]
fn entering_link_3_answers_the_masters_count_and_rsn_0() {
    let (reply, state) = after(ASYNC, &[0x0D, 0x5A]);
    assert_eq!(reply[..4], [0x0D, 0x0A, 4, 0]);
    assert_eq!(state, [0x12, 3, 16, 0, 5, 0, 0, 0, 0, 0, 0]);
    let (reply, state) = after(DISCONNECTED, &[0x0E, 0x5A, 0, 0, 3, 2, 1, 4]);
    assert_eq!(reply[..8], [0x0E, 0x0A, 4, 0, 3, 2, 1, 4]);
    assert_eq!(state, [0x12, 3, 16, 0, 1, 0, 0, 0, 0, 0, 0]);
}

#[test]
fn a_refused_command_counts_in_link_3() {
    let mut start = SYNC;
    start[7] = 15;
    let (reply, state) = after(start, &[0x0D, 0xF8]);
    assert_eq!(reply[..4], [0x0D, 0x08, 5, 12]);
    assert_eq!(state, [0x12, 3, 16, 1, 5, 1, 8, 0, 12, 0, 0]);
}

#[test]
fn the_first_alarm_stays_latched() {
    let mut start = ASYNC;
    start[8] = 10;
    let (reply, state) = after(start, &[0x77]);
    assert_eq!((reply[2], reply[3], state[8]), (5, 8, 10));
    let (reply, state) = after(start, &[5]);
    assert_eq!((reply[2], reply[3], reply[8], state[8]), (5, 0, 10, 10));
    let (reply, state) = after(start, &[6]);
    assert_eq!((reply[2], reply[3], state), (4, 0, ASYNC));
    assert_eq!(alarm(ASYNC, &[5, 0, 0, 0, 0, 1]), 9);
    assert_eq!(alarm(ASYNC, &[6, 0, 0, 0, 1, 0]), 9);
}

#[test]
fn links_allow_their_codes() {
    for code in [1, 2, 3, 5, 6, 0x0D, 0x1D, 0x1E] {
        assert_eq!(alarm(DISCONNECTED, &[code]), 12);
    }
    assert_eq!(alarm(DISCONNECTED, &[4]), 8);
    assert_eq!(alarm(DISCONNECTED, &[0x0F]), 0);
    assert_eq!(alarm(ASYNC, &[0x0E, 0, 0, 0, 3, 0, 1, 4]), 12);
    assert_eq!(alarm(SYNC, &[0x0E, NEXT, 0, 0, 3, 0, 1, 4]), 12);
}

#[test]
fn connect_checks_each_field() {
    let connect =
        |com_mod, com_time| alarm(DISCONNECTED, &[0x0E, 0, 0, 0, 3, com_mod, com_time, 4]);
    for com_mod in 0..=255 {
        let expected = if [0, 2, 6].contains(&com_mod) { 0 } else { 9 };
        assert_eq!(connect(com_mod, 255), expected);
    }
    assert_eq!((connect(0, 0), connect(0, 1)), (9, 0));
    assert_eq!((connect(2, 0), connect(2, 1)), (9, 0));
    assert_eq!((connect(6, 1), connect(6, 2)), (9, 0));
    assert_eq!(alarm(DISCONNECTED, &[0x0E, 0, 0, 0, 4, 0, 1, 4]), 9);
    assert_eq!(alarm(DISCONNECTED, &[0x0E, 0, 0, 0, 3, 0, 1, 3]), 9);
}

#[test]
fn id_items_end_at_their_length() {
    let (reply, _) = after(ASYNC, &[3, 0, 0, 0, 9, 1, 2, 0]);
    assert_eq!(reply[4..], [9, 1, 2, 0, 0x72, 0x73, 0, 0, 0, 0, 0, 0]);
    assert_eq!(alarm(ASYNC, &[3, 0, 0, 0, 9, 2, 2, 0]), 9);
    assert_eq!(alarm(ASYNC, &[3, 0, 0, 0, 9, 0, 0, 0]), 9);
    assert_eq!(alarm(ASYNC, &[3, 0, 0, 0, 9, 0, 1, 1]), 9);
    assert_eq!(alarm(ASYNC, &[3, 0, 0, 0, 8, 0, 1, 0]), 9);
}

#[test]
fn memory_commands_do_not_wrap() {
    let read = |element, count: u16, address: u32| {
        let mode = memory_mode::octet(element);
        let mut command = vec![0x1D, 0, 0, 0, 0, mode];
        command.extend(count.to_le_bytes());
        command.extend(address.to_le_bytes());
        alarm(ASYNC, &command)
    };
    assert_eq!(read(1, 4, 0xFFFF_FFFC), 0);
    assert_eq!(read(1, 4, 0xFFFF_FFFD), 9);
    assert_eq!(read(2, 0x8001, 0), 9);
    assert_eq!(read(3, 0x4001, 0), 9);
    assert_eq!(read(3, 0, 0), 9);
    assert_eq!(read(3, 1, 0), 0);
    assert_eq!((read(0, 1, 0), read(4, 1, 0)), (9, 9));
}

#[test]
fn three_memory_modes_are_allowed() {
    let allowed: Vec<_> = (0..=255)
        .filter_map(|mode| memory_mode::element_octets(mode).map(|octets| (mode, octets)))
        .collect();
    let mut expected = vec![(0x11, 1)];
    expected.extend([(memory_mode::octet(2), 2), (memory_mode::octet(3), 4)]);
    assert_eq!(allowed, expected);
}

#[test]
fn refusals_come_in_order_and_write_nothing() {
    let run = |state: &[u8], memory: usize, command: usize, reply: usize| {
        let (mut state, mut memory) = (state.to_vec(), vec![7; memory]);
        let (before, mut reply) = (state.clone(), vec![7; reply]);
        let command = vec![0; command];
        let answer = exchange(&sheet(), &mut state, &mut memory, &command, &mut reply);
        assert!(state == before && memory.iter().chain(&reply).all(|&octet| octet == 7));
        answer
    };
    let disabled = [0x12, 0, 16, 0, 0, 0, 0, 0, 0, 0, 0];
    assert_eq!(run(&ASYNC[..10], 7, 7, 7), 1);
    assert_eq!(run(&disabled, 7, 7, 7), 2);
    assert_eq!(run(&disabled, 8, 7, 7), 3);
    assert_eq!(run(&disabled, 8, 16, 7), 4);
    assert_eq!(run(&disabled, 8, 16, 16), 5);
    let mut state = ASYNC;
    assert_eq!((enable(&sheet(), &mut state), state), (6, ASYNC));
    let (mut short, mut long) = ([1; 10], [1; 12]);
    assert_eq!((reset(&sheet(), &mut short), short), (1, [1; 10]));
    assert_eq!((reset(&sheet(), &mut long), long), (1, [1; 12]));
}

#[test]
fn state_records_are_valid_only_in_agreement() {
    let octets = sheet();
    let read = |record: [u8; 11]| {
        let sheet = Sheet::read(&octets).ok()?;
        State::read(&record, &sheet)
    };
    let valid = |record| read(record).is_some();
    assert!(valid(ASYNC) && valid(SYNC) && valid(DISCONNECTED));
    assert!(valid([0x12, 3, 16, 0, 1, 0, 0, 0, 12, 12, 0]));
    let bad = [
        [0x11, 2, 16, 0, 5, 0, 0, 0, 0, 0, 0],
        [0x12, 4, 16, 0, 5, 0, 0, 0, 0, 0, 0],
        [0x12, 2, 32, 0, 5, 0, 0, 0, 0, 0, 0],
        [0x12, 2, 16, 1, 5, 0, 0, 0, 0, 0, 0],
        [0x12, 2, 16, 0, 0, 0, 0, 0, 0, 0, 0],
        [0x12, 1, 16, 0, 1, 0, 0, 0, 0, 0, 0],
        [0x12, 3, 16, 1, 1, 0, 0, 0, 0, 0, 0],
        [0x12, 3, 16, 0, 5, 0, 1, 0, 0, 0, 0],
        [0x12, 3, 16, 0, 5, 0, 0, 1, 0, 0, 0],
        [0x12, 3, 16, 0, 5, 1, 16, 0, 0, 0, 0],
        [0x12, 3, 16, 0, 5, 1, 0, 16, 0, 0, 0],
        [0x12, 2, 16, 0, 5, 1, 0, 0, 0, 0, 0],
        [0x12, 2, 16, 0, 5, 0, 0, 0, 11, 0, 0],
        [0x12, 2, 16, 0, 5, 0, 0, 0, 0, 8, 0],
        [0x12, 0, 16, 0, 0, 0, 0, 0, 8, 0, 0],
        [0x12, 0, 16, 0, 0, 0, 0, 0, 0, 12, 0],
    ];
    assert!(!bad.iter().any(|&record| valid(record)));
}
