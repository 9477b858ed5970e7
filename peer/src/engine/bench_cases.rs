//! Document 01, "On the bench": the eleven cases and the bench program's lines.
//!
//! Each test compares the whole reply, the whole state and the whole memory.

use super::memory_mode;
use super::{enable, exchange, reset, sheet};

/// Sheet P.
const P: [u8; 33] = [
    0x01, 0x10, 0x30, 0x00, //
    0x02, 0x00, 0x10, 0x00, 0x00, 0x04, 0x00, 0x00, 0x00, 0x03, //
    0x02, 0x04, 0x10, 0x00, 0x00, 0x04, 0x00, 0x00, 0x00, 0x06, //
    0x03, 0x07, 0x00, 0x02, 0x10, 0x00, 0x00, 0x02, //
    0x00,
];
const MEMORY: [u8; 8] = [0x0A, 0x0B, 0x0C, 0x0D, 0x0E, 0x0F, 0x10, 0x11];
/// State A.
const A: [u8; 11] = [0x12, 2, 0x10, 0, 1, 0, 0, 0, 0, 0, 0];

/// Starts from a state and the bench's memory, with old octets in the reply.
fn bench(state: [u8; 11], command: [u8; 16]) -> (u64, [u8; 16], [u8; 11], [u8; 8]) {
    let (mut state, mut memory, mut reply) = (state, MEMORY, [0xEE; 16]);
    let answer = exchange(&P, &mut state, &mut memory, &command, &mut reply);
    (answer, reply, state, memory)
}

/// The state with another octet or two.
fn with(state: [u8; 11], changes: &[(usize, u8)]) -> [u8; 11] {
    let mut changed = state;
    for &(at, octet) in changes {
        changed[at] = octet;
    }
    changed
}

fn command(octets: &[u8]) -> [u8; 16] {
    let mut command = [0; 16];
    command[..octets.len()].copy_from_slice(octets);
    command
}

fn memory_command(code: u8, element_code: u8, count: u8, address: u16, data: &[u8]) -> [u8; 16] {
    let mode = memory_mode::octet(element_code);
    let [low, high] = address.to_le_bytes();
    let mut command = command(&[code, 0, 0, 0, 0, mode, count, 0, low, high]);
    command[12..12 + data.len()].copy_from_slice(data);
    command
}

/// The answer of a built reply with the place of its refused command.
fn built_at(place: u64) -> u64 {
    place << 32
}

/// A reply of head and zero body.
fn refused(code: u8, rwdt: u8, status: [u8; 2]) -> [u8; 16] {
    command(&[code, rwdt, status[0], status[1]])
}

#[test]
fn case_1_reads_four_octets() {
    let asked = command(&[0x1D, 0, 0, 0, 0, 0x11, 4, 0, 0, 0x10, 0, 0]);
    let told = [
        0x1D, 0, 4, 0, 0, 0x11, 4, 0, 0, 0x10, 0, 0, 0x0A, 0x0B, 0x0C, 0x0D,
    ];
    assert_eq!(bench(A, asked), (0, told, A, MEMORY));
}

#[test]
fn case_2_count_five_is_too_much() {
    let asked = command(&[0x1D, 0, 0, 0, 0, 0x11, 5, 0, 0, 0x10, 0, 0]);
    let told = refused(0x1D, 0, [5, 9]);
    let after = with(A, &[(8, 9)]);
    assert_eq!(bench(A, asked), (built_at(6), told, after, MEMORY));
}

#[test]
fn case_3_the_span_ends_where_reading_is_not_allowed() {
    let asked = memory_command(0x1D, 2, 2, 0x1002, &[]);
    let told = refused(0x1D, 0, [5, 10]);
    let after = with(A, &[(8, 10)]);
    assert_eq!(bench(A, asked), (built_at(2), told, after, MEMORY));
}

#[test]
fn case_4_writes_across_two_regions() {
    let asked = memory_command(0x1E, 3, 1, 0x1002, &[1, 2, 3, 4]);
    let mut told = asked;
    told[2] = 4;
    let memory = [0x0A, 0x0B, 1, 2, 3, 4, 0x10, 0x11];
    assert_eq!(bench(A, asked), (0, told, A, memory));
}

#[test]
fn case_5_the_same_in_link_3_is_not_allowed() {
    let asked = memory_command(0x1E, 3, 1, 0x1002, &[1, 2, 3, 4]);
    let start = with(A, &[(1, 3)]);
    let after = with(start, &[(5, 1), (7, 1), (8, 10)]);
    let told = refused(0x1E, 0x10, [5, 10]);
    assert_eq!(bench(start, asked), (0, told, after, MEMORY));
}

#[test]
fn case_6_an_unmapped_address_is_data_before_rights() {
    let asked = memory_command(0x1D, 1, 1, 0x1008, &[]);
    let told = refused(0x1D, 0, [5, 9]);
    let after = with(A, &[(8, 9)]);
    assert_eq!(bench(A, asked), (built_at(8), told, after, MEMORY));
}

#[test]
fn case_7_an_unknown_code() {
    let told = refused(0x20, 0, [5, 8]);
    let after = with(A, &[(8, 8)]);
    assert_eq!(bench(A, command(&[0x20])), (0, told, after, MEMORY));
}

#[test]
fn case_8_parameter_seven() {
    let asked = command(&[1, 0, 0, 0, 7, 0, 2]);
    let told = command(&[1, 0, 4, 0, 7, 0, 2, 0, 0x0C, 0x0D]);
    assert_eq!(bench(A, asked), (0, told, A, MEMORY));
    let asked = command(&[1, 0, 0, 0, 7, 0, 1]);
    let told = refused(1, 0, [5, 9]);
    let after = with(A, &[(8, 9)]);
    assert_eq!(bench(A, asked), (built_at(6), told, after, MEMORY));
}

#[test]
fn case_9_dual_transfer_needs_two_cycles() {
    let start = [0x12, 1, 0x10, 0, 0, 0, 0, 0, 0, 0, 0];
    let asked = command(&[0x0E, 0, 0, 0, 0x30, 6, 1, 0]);
    let told = refused(0x0E, 0, [5, 9]);
    let after = with(start, &[(8, 9)]);
    assert_eq!(bench(start, asked), (built_at(6), told, after, MEMORY));
    let asked = command(&[0x0E, 0, 0, 0, 0x30, 6, 2, 0]);
    let told = command(&[0x0E, 0, 4, 0, 0x30, 6, 2, 0]);
    let after = with(start, &[(1, 3), (3, 1), (4, 2)]);
    assert_eq!(bench(start, asked), (0, told, after, MEMORY));
}

#[test]
fn case_10_the_master_counts_from_15_to_0() {
    let start = with(A, &[(1, 3), (5, 1), (6, 15), (7, 6)]);
    let after = with(start, &[(6, 0), (7, 7)]);
    let told = refused(0, 0x70, [4, 0]);
    // MN 0 with SN equal to RSN, which is the premise of request 5.
    assert_eq!(bench(start, command(&[0, 0x60])), (0, told, after, MEMORY));
    let start = with(A, &[(1, 3), (3, 1), (4, 2), (5, 1), (6, 3), (7, 6)]);
    let after = with(A, &[(4, 2), (9, 12)]);
    let told = refused(0, 0, [5, 0xC0]);
    for wdt in [0x03, 0x63] {
        assert_eq!(bench(start, command(&[0, wdt])), (0, told, after, MEMORY));
    }
}

#[test]
fn case_11_sheets_cut_and_too_long() {
    assert_eq!(sheet(&P), 0);
    assert_eq!(sheet(&[]), 11);
    assert_eq!(sheet(&P[..32]), 11 | 32 << 32);
    let mut longer = P.to_vec();
    longer.push(0);
    assert_eq!(sheet(&longer), 13 | 33 << 32);
}

#[test]
fn the_bench_program_prints_its_two_lines() {
    let (mut state, mut memory) = ([0xEE; 11], [0; 8]);
    assert_eq!(reset(&P, &mut state), 0);
    assert_eq!(state, [0x12, 0, 0x10, 0, 0, 0, 0, 0, 0, 0, 0]);
    assert_eq!(enable(&P, &mut state), 0);
    assert_eq!(state, [0x12, 1, 0x10, 0, 0, 0, 0, 0, 0, 0, 0]);
    let commands = [command(&[]), command(&[0x0E, 0, 0, 0, 0x30, 0, 1, 0])];
    let lines = [
        "00000400000000000000000000000000",
        "0E000400300001000000000000000000",
    ];
    for (command, line) in commands.iter().zip(lines) {
        let mut reply = [0xEE; 16];
        let answer = exchange(&P, &mut state, &mut memory, command, &mut reply);
        let printed: String = reply.iter().map(|octet| format!("{octet:02X}")).collect();
        assert_eq!((answer, printed.as_str()), (0, line));
    }
    assert_eq!(state, [0x12, 2, 0x10, 0, 1, 0, 0, 0, 0, 0, 0]);
    assert_eq!(memory, [0; 8]);
}
