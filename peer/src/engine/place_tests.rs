//! Request 3: the place of a refused command, and 0 of every other built reply.

use super::memory_mode;
use super::{exchange, replay};

/// Records of links 1 to 3 from octet 1 on, L left out.
const DISCONNECTED: [u8; 8] = [1, 0, 0, 0, 0, 0, 0, 0];
const ASYNC: [u8; 8] = [2, 0, 5, 0, 0, 0, 0, 0];
const SYNC: [u8; 8] = [3, 1, 5, 1, 7, 4, 0, 0];
/// The WDT that `SYNC` asks for.
const NEXT: u8 = 0x48;
const LENGTHS: [u8; 5] = [8, 16, 32, 48, 64];
/// No command may read or write octets 4 and 7 of the addresses 10 to 1F hex; 1A is in no region.
const REGIONS: [[u8; 3]; 6] = [
    [0x10, 4, 7],
    [0x14, 1, 0],
    [0x15, 2, 7],
    [0x17, 1, 0],
    [0x18, 2, 7],
    [0x1B, 5, 7],
];
const MEMORY: usize = 15;

/// Version 3, profile 4; parameters 101 to 103 hex, and item 9 of 3 octets.
fn sheet(pdu_length: u8) -> Vec<u8> {
    let mut octets = vec![1, pdu_length, 3, 4];
    for [start, length, rights] in REGIONS {
        octets.extend([2, start, 0, 0, 0, length, 0, 0, 0, rights]);
    }
    for [number, start, size] in [[1, 0x10, 3], [2, 0x11, 8], [3, 0x11, 9]] {
        octets.extend([3, number, 1, start, 0, 0, 0, size]);
    }
    octets.extend([4, 9, 3, 0x71, 0x72, 0x73]);
    octets.extend([0; 30]);
    octets
}

/// The record with this L.
fn record(pdu_length: u8, state: [u8; 8]) -> [u8; 11] {
    let mut record = [0x12, state[0], pdu_length, 0, 0, 0, 0, 0, 0, 0, 0];
    record[3..10].copy_from_slice(&state[1..]);
    record
}

/// Alarm and place of one exchange; the number has to be 0.
fn told_at(pdu_length: u8, state: [u8; 8], octets: &[u8]) -> (u8, u64) {
    let length = usize::from(pdu_length);
    let (mut state, mut memory) = (record(pdu_length, state), [0x55; MEMORY]);
    let (mut command, mut reply) = (octets.to_vec(), vec![0xEE; length]);
    command.resize(length, 0);
    let sheet = sheet(pdu_length);
    let answer = exchange(&sheet, &mut state, &mut memory, &command, &mut reply);
    assert_eq!(answer as u32, 0);
    (reply[3] & 15, answer >> 32)
}

/// The same at L 16 in link 2.
fn told(octets: &[u8]) -> (u8, u64) {
    told_at(16, ASYNC, octets)
}

/// Octets 4 to 7 behind the head.
fn four(code: u8, fields: [u8; 4]) -> Vec<u8> {
    [&[code, NEXT, 0, 0][..], &fields].concat()
}

fn memory(code: u8, mode: u8, count: u16, address: u32) -> Vec<u8> {
    let mut octets = vec![code, NEXT, 0, 0, 0xFF, mode];
    octets.extend(count.to_le_bytes());
    octets.extend(address.to_le_bytes());
    octets
}

#[test]
fn a_parameters_number_has_4_and_its_size_6() {
    for code in [1, 2] {
        assert_eq!(told(&four(code, [1, 1, 3, 0])), (0, 0));
        for number in [[0, 1], [4, 1], [1, 0], [1, 2]] {
            assert_eq!(told(&four(code, [number[0], number[1], 3, 0])), (9, 4));
        }
        for size in [0, 2, 4, 255] {
            assert_eq!(told(&four(code, [1, 1, size, 0])), (9, 6));
        }
        // Nine octets are one over L - 8.
        assert_eq!(told(&four(code, [3, 1, 9, 0])), (9, 6));
        for pdu_length in LENGTHS {
            let place = if pdu_length == 8 { (9, 6) } else { (0, 0) };
            let command = four(code, [1, 1, 3, 0]);
            assert_eq!(told_at(pdu_length, SYNC, &command), place);
        }
    }
}

#[test]
fn an_items_code_has_4_and_its_size_6() {
    assert_eq!(told(&four(3, [9, 0, 3, 0])), (0, 0));
    assert_eq!(told(&four(3, [8, 0, 3, 0])), (9, 4));
    assert_eq!(told(&four(3, [10, 0, 3, 0])), (9, 4));
    for (offset, size) in [(0, 0), (0, 4), (1, 3), (2, 2), (3, 1), (3, 0), (255, 1)] {
        assert_eq!(told(&four(3, [9, offset, size, 0])), (9, 6));
    }
    assert_eq!(told(&four(3, [9, 0, 1, 1])), (9, 6));
    // At L 8 no size is at most L - 8.
    assert_eq!(told_at(8, ASYNC, &four(3, [9, 0, 1, 0])), (9, 6));
    assert_eq!(told_at(8, ASYNC, &four(3, [8, 0, 1, 0])), (9, 4));
}

#[test]
fn alm_has_4_whichever_octet_is_not_zero_and_0_at_l_8() {
    for pdu_length in LENGTHS {
        for mode in [[1, 0], [0, 1], [0, 255], [3, 7]] {
            let fields = [mode[0], mode[1], 0, 0];
            let clear = told_at(pdu_length, ASYNC, &four(6, fields));
            let read = told_at(pdu_length, SYNC, &four(5, fields));
            let place = if pdu_length == 8 { 0 } else { 4 };
            assert_eq!((clear, read), ((9, 4), (9, place)));
        }
        let read = told_at(pdu_length, ASYNC, &four(5, [0; 4]));
        let expected = if pdu_length == 8 { 9 } else { 0 };
        assert_eq!(read, (expected, 0));
    }
}

#[test]
fn each_field_of_connect_has_its_octet() {
    for pdu_length in LENGTHS {
        let connect = |fields| told_at(pdu_length, DISCONNECTED, &four(0x0E, fields));
        assert_eq!(connect([3, 2, 1, 4]), (0, 0));
        assert_eq!(
            (connect([2, 2, 1, 4]), connect([4, 2, 1, 4])),
            ((9, 4), (9, 4))
        );
        for com_mod in (0..=255).filter(|com_mod| ![0, 2, 6].contains(com_mod)) {
            assert_eq!(connect([3, com_mod, 2, 4]), (9, 5));
        }
        assert_eq!(
            (connect([3, 0, 0, 4]), connect([3, 2, 0, 4])),
            ((9, 6), (9, 6))
        );
        assert_eq!(
            (connect([3, 6, 1, 4]), connect([3, 6, 2, 4])),
            ((9, 6), (0, 0))
        );
        assert_eq!(
            (connect([3, 0, 1, 3]), connect([3, 6, 2, 5])),
            ((9, 7), (9, 7))
        );
    }
}

#[test]
fn memory_commands_have_5_6_and_8() {
    let [octets, words, longs] = [1, 2, 3].map(memory_mode::octet);
    for code in [0x1D, 0x1E] {
        assert_eq!(told(&memory(code, octets, 4, 0x10)), (0, 0));
        for mode in (0..=255).filter(|mode| ![octets, words, longs].contains(mode)) {
            assert_eq!(told(&memory(code, mode, 1, 0x10)), (9, 5));
            assert_eq!(told_at(8, SYNC, &memory(code, mode, 1, 0x10)[..8]), (9, 5));
        }
        for (mode, count) in [
            (octets, 5),
            (words, 3),
            (longs, 2),
            (longs, 0x4001),
            (words, 0),
        ] {
            assert_eq!(told(&memory(code, mode, count, 0x10)), (9, 6));
        }
        assert_eq!(
            told_at(8, ASYNC, &memory(code, octets, 1, 0x10)[..8]),
            (9, 6)
        );
        // However many octets of the span come before the first that is in no region.
        for (count, address) in [
            (1, 0x0F),
            (4, 0x0F),
            (3, 0x18),
            (4, 0x17),
            (1, 0x1A),
            (2, 0x1F),
        ] {
            assert_eq!(told(&memory(code, octets, count, address)), (9, 8));
        }
        assert_eq!(told(&memory(code, octets, 2, 0xFFFF_FFFF)), (9, 8));
    }
}

/// 14 and 17 hex lack every right: the first of them that the span has is told.
#[test]
fn alarm_10_counts_the_octets_before_the_first_that_lacks_the_right() {
    for code in [0x1D, 0x1E] {
        for start in 0x10u32..0x18 {
            for count in 1..=20u32 {
                let lacking = (start..start + count).position(|at| at == 0x14 || at == 0x17);
                let expected = match lacking {
                    _ if start + count > 0x1A => (9, 8),
                    Some(before) => (10, before as u64),
                    None => (0, 0),
                };
                let command = memory(code, memory_mode::octet(1), count as u16, start);
                assert_eq!(told_at(32, SYNC, &command), expected);
                assert_eq!(told_at(64, ASYNC, &command), expected);
            }
        }
    }
    for code in [1, 2] {
        assert_eq!(told(&four(code, [2, 1, 8, 0])), (10, 3));
        assert_eq!(told_at(32, SYNC, &four(code, [3, 1, 9, 0])), (10, 3));
    }
}

#[test]
fn alarms_8_and_12_and_a_lost_cycle_have_0() {
    for pdu_length in LENGTHS {
        for code in 0..=255 {
            let command = four(code, [0xFF; 4]);
            // The last MN, or the RSN, is such that this WDT loses the cycle.
            for at in [4, 5] {
                let mut lost = SYNC;
                lost[at] = 8;
                assert_eq!(told_at(pdu_length, lost, &command), (0, 0));
            }
        }
        for code in [1, 2, 3, 5, 6, 0x0D, 0x1D, 0x1E] {
            let command = four(code, [0xFF; 4]);
            assert_eq!(told_at(pdu_length, DISCONNECTED, &command), (12, 0));
        }
        for state in [DISCONNECTED, ASYNC, SYNC] {
            assert_eq!(told_at(pdu_length, state, &four(0x77, [0xFF; 4])), (8, 0));
            assert_eq!(told_at(pdu_length, state, &four(0, [0xFF; 4])), (0, 0));
        }
        for state in [ASYNC, SYNC] {
            let connect = four(0x0E, [0xFF; 4]);
            assert_eq!(told_at(pdu_length, state, &connect), (12, 0));
        }
    }
}

/// Of two fields the first in document 01's order is told.
#[test]
fn of_two_wrong_fields_the_first_is_told() {
    for code in [1, 2] {
        assert_eq!(told(&four(code, [0, 1, 4, 0])), (9, 4));
        assert_eq!(told(&four(code, [2, 1, 7, 0])), (9, 6));
    }
    assert_eq!(told(&four(3, [8, 0, 0, 0])), (9, 4));
    assert_eq!(told(&four(3, [8, 9, 9, 9])), (9, 4));
    let connect = |fields| told_at(16, DISCONNECTED, &four(0x0E, fields));
    for (fields, place) in [
        ([2, 1, 1, 4], 4),
        ([2, 2, 0, 4], 4),
        ([2, 2, 1, 5], 4),
        ([3, 1, 0, 4], 5),
        ([3, 4, 1, 5], 5),
        ([3, 2, 0, 5], 6),
        ([3, 6, 1, 5], 6),
    ] {
        assert_eq!(connect(fields), (9, place));
    }
    let [octets, longs] = [1, 3].map(memory_mode::octet);
    for code in [0x1D, 0x1E] {
        assert_eq!(told(&memory(code, 0, 0, 0x10)), (9, 5));
        assert_eq!(told(&memory(code, 0, 1, 0x1A)), (9, 5));
        assert_eq!(told(&memory(code, 0, 1, 0x14)), (9, 5));
        assert_eq!(told(&memory(code, longs, 2, 0x1A)), (9, 6));
        assert_eq!(told(&memory(code, octets, 5, 0x14)), (9, 6));
        assert_eq!(told(&memory(code, octets, 4, 0x17)), (9, 8));
    }
}

/// Records with alarms 8, 9 and 10 agree as any others, and the answer is their number.
#[test]
fn a_replay_tells_no_place_of_a_refused_command() {
    let (sheet, start) = (sheet(16), record(16, ASYNC));
    let (mut state, mut memory_octets, mut trace) = (start, [0; MEMORY], Vec::new());
    for mut command in [
        four(0x77, [0; 4]),
        four(1, [0; 4]),
        memory(0x1D, 0x11, 4, 0x11),
    ] {
        let mut reply = [0; 16];
        command.resize(16, 0);
        exchange(&sheet, &mut state, &mut memory_octets, &command, &mut reply);
        trace.push(0x22);
        trace.extend(command);
        trace.extend(reply);
    }
    assert_eq!(
        replay(&sheet, &mut start.clone(), &mut [0; MEMORY], &trace),
        3 << 32
    );
    trace[33 + 17] ^= 1;
    let differs = 34 | 64 << 32;
    assert_eq!(
        replay(&sheet, &mut start.clone(), &mut [0; MEMORY], &trace),
        differs
    );
}
