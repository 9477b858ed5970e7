//! Request 8: every parameter of a good sheet has its whole span in regions, so
//! a command on it meets nothing but its number, its size and its right.

use super::{exchange, sheet};

/// L 16; a parameter of at most 8 octets has room.
const LINK: [u8; 4] = [1, 16, 3, 4];
const ASYNC: [u8; 11] = [0x12, 2, 16, 0, 5, 0, 0, 0, 0, 0, 0];
const SYNC: [u8; 11] = [0x12, 3, 16, 1, 5, 1, 7, 4, 0, 0, 0];
/// The WDT that `SYNC` asks for.
const NEXT: u8 = 0x48;
const SPAN_FAULT: u64 = 17;

/// A region as start, length and rights.
type Part = (u64, u64, u8);

fn sheet_of(parts: &[Part], address: u64, size: u8) -> Vec<u8> {
    let mut octets = LINK.to_vec();
    for &(start, length, rights) in parts {
        octets.push(2);
        octets.extend((start as u32).to_le_bytes());
        octets.extend((length as u32).to_le_bytes());
        octets.push(rights);
    }
    octets.extend([3, 7, 0]);
    octets.extend((address as u32).to_le_bytes());
    octets.extend([size, 0]);
    octets
}

/// Address and rights of each octet of the memory.
fn mapped(parts: &[Part]) -> Vec<(u64, u8)> {
    parts
        .iter()
        .flat_map(|&(start, length, rights)| (start..start + length).map(move |at| (at, rights)))
        .collect()
}

/// Alarm, data and memory of one command on parameter 7, over octets that are their addresses.
fn after(sheet: &[u8], parts: &[Part], state: [u8; 11], head: [u8; 7]) -> (u8, [u8; 8], Vec<u8>) {
    let mut memory: Vec<u8> = mapped(parts).iter().map(|&(at, _)| at as u8).collect();
    let (mut state, mut reply, mut command) = (state, [0xEE; 16], [0xD7; 16]);
    command[..7].copy_from_slice(&head);
    let answer = exchange(sheet, &mut state, &mut memory, &command, &mut reply);
    assert_eq!(answer as u32, 0);
    let mut data = [0; 8];
    data.copy_from_slice(&reply[8..]);
    (reply[3] & 15, data, memory)
}

/// The alarm of PRM_RD or PRM_WR in link 2 or 3.
fn alarm(parts: &[Part], address: u64, size: u8, code: u8, state: [u8; 11]) -> u8 {
    let octets = sheet_of(parts, address, size);
    after(&octets, parts, state, [code, NEXT, 0, 0, 7, 0, size]).0
}

/// Three regions of 1 to 3 octets with gaps of 0 to 2 before each, the middle one closed.
fn layouts(base: u64) -> Vec<Vec<Part>> {
    let mut layouts = Vec::new();
    for choice in 0..729 {
        let mut at = base;
        let digits = (0..6).map(|digit| choice / 3u64.pow(digit) % 3);
        let digits: Vec<u64> = digits.collect();
        let mut parts = Vec::new();
        for (pair, rights) in digits.chunks(2).zip([7, 0, 7]) {
            at += pair[0];
            parts.push((at, 1 + pair[1], rights));
            at += 1 + pair[1];
        }
        layouts.push(parts);
    }
    layouts
}

/// Alarm, data of PRM_RD and memory behind PRM_WR, where these octets of the memory are meant.
fn told(mapped: &[(u64, u8)], found: &[(u64, u8)]) -> (u8, [u8; 8], Vec<u8>) {
    let mut data = [0; 8];
    let mut memory: Vec<u8> = mapped.iter().map(|octet| octet.0 as u8).collect();
    if found.iter().any(|octet| octet.1 == 0) {
        return (10, data, memory);
    }
    for (octet, read) in found.iter().zip(&mut data) {
        *read = octet.0 as u8;
    }
    for (octet, written) in mapped.iter().zip(&mut memory) {
        if found.contains(octet) {
            *written = 0xD7;
        }
    }
    (0, data, memory)
}

/// Octet by octet: either the sheet is refused, or the command gets 0 or alarm 10.
fn span_is_judged(parts: &[Part], address: u64, size: u8) {
    let octets = sheet_of(parts, address, size);
    let mapped = mapped(parts);
    let found: Vec<(u64, u8)> = (address..address + u64::from(size))
        .filter_map(|at| mapped.iter().find(|octet| octet.0 == at).copied())
        .collect();
    if found.len() < usize::from(size) {
        let place = 4 + 10 * parts.len() as u64;
        assert_eq!(sheet(&octets), SPAN_FAULT | place << 32);
        return;
    }
    let (alarm, data, memory) = told(&mapped, &found);
    let read = after(&octets, parts, ASYNC, [1, 0, 0, 0, 7, 0, size]);
    assert_eq!((read.0, read.1), (alarm, data));
    let write = after(&octets, parts, ASYNC, [2, 0, 0, 0, 7, 0, size]);
    assert_eq!((write.0, write.2), (alarm, memory));
}

#[test]
fn no_good_sheet_has_an_unmapped_parameter() {
    for parts in layouts(0x1000) {
        for address in 0x0FFE..0x1010 {
            for size in 1..=8 {
                span_is_judged(&parts, address, size);
            }
        }
    }
}

#[test]
fn nor_at_the_last_address() {
    for mut parts in layouts(0) {
        let end = parts[2].0 + parts[2].1;
        let base = (1 << 32) - end;
        parts.iter_mut().for_each(|part| part.0 += base);
        for address in base..1 << 32 {
            for size in 1..=8 {
                span_is_judged(&parts, address, size);
            }
        }
    }
}

#[test]
fn the_right_is_asked_of_each_octet() {
    for lacking in 0..10 {
        let mut parts: Vec<Part> = (0..10).map(|at| (0x20 + at, 1, 7)).collect();
        for (code, state, right) in [(1, ASYNC, 1), (1, SYNC, 1), (2, ASYNC, 2), (2, SYNC, 4)] {
            parts[lacking].2 = 7 - right;
            let inside = (1..9).contains(&lacking);
            let expected = if inside { 10 } else { 0 };
            assert_eq!(alarm(&parts, 0x21, 8, code, state), expected);
            parts[lacking].2 = right;
            assert_eq!(alarm(&parts, 0x21, 8, code, state), 0);
        }
    }
}

#[test]
fn number_and_size_come_before_the_right() {
    let parts = [(0x20, 9, 0)];
    let octets = sheet_of(&parts, 0x20, 8);
    let alarm_of = |head| after(&octets, &parts, ASYNC, head).0;
    for code in [1, 2] {
        assert_eq!(alarm_of([code, 0, 0, 0, 7, 0, 8]), 10);
        assert_eq!(alarm_of([code, 0, 0, 0, 8, 0, 8]), 9);
        assert_eq!(alarm_of([code, 0, 0, 0, 7, 1, 8]), 9);
        assert_eq!(alarm_of([code, 0, 0, 0, 7, 0, 7]), 9);
        assert_eq!(alarm_of([code, 0, 0, 0, 7, 0, 9]), 9);
        assert_eq!(alarm(&parts, 0x20, 9, code, ASYNC), 9);
    }
}
