//! Request 13 in the short type: all octets but the code, the fields, data that is written, and WDT.

use super::exchange;

const DISCONNECTED: [u8; 11] = [0x12, 1, 16, 0, 0, 0, 0, 0, 0, 0, 0];
const ASYNC: [u8; 11] = [0x12, 2, 16, 0, 5, 0, 0, 0, 0, 0, 0];
const SYNC: [u8; 11] = [0x12, 3, 16, 1, 5, 1, 7, 4, 0, 0, 0];
/// The WDT that `SYNC` asks for.
const NEXT: u8 = 0x48;

/// Eight octets with all rights and one with none; parameters 101 to 109 hex of 1 to 9 octets; an item of nine.
fn sheet(release: u8) -> Vec<u8> {
    let mut octets = vec![5, 16, 3, 4];
    octets.extend([2, 0, 0, 0, 0, 8, 0, 0, 0, 7]);
    octets.extend([2, 8, 0, 0, 0, 1, 0, 0, 0, 0]);
    for size in 1..=9 {
        octets.extend([3, size, 1, 0, 0, 0, 0, size]);
    }
    octets.extend([3, 0, 2, 7, 0, 0, 0, 2]);
    octets.extend([4, 9, 9]);
    octets.extend(0x61..=0x69);
    octets.extend([0; 23]);
    octets.extend([6, 1, 7, release, 0]);
    octets
}

/// Alarm and place; a refused command leaves the memory.
fn told(release: u8, state: [u8; 11], command: [u8; 16]) -> (u8, u64) {
    let (mut state, mut memory, mut reply) = (state, [0x33; 9], [0xEE; 16]);
    let sheet = sheet(release);
    let answer = exchange(&sheet, &mut state, &mut memory, &command, &mut reply);
    assert_eq!(answer as u32, 0);
    if reply[1] != 0 {
        assert!(memory == [0x33; 9] && reply[4..15].iter().all(|&octet| octet == 0));
        assert_eq!(state[8], reply[1]);
    }
    (reply[1], answer >> 32)
}

/// Code and what it names from octet 4 on, with the WDT that `SYNC` asks for.
fn command(code: u8, named: &[u8]) -> [u8; 16] {
    let mut command = [0; 16];
    command[0] = code;
    command[4..4 + named.len()].copy_from_slice(named);
    command[15] = NEXT;
    command
}

/// Every code with the links that take it; PRM_WR with the smallest and the largest data, and some between.
fn cases() -> Vec<([u8; 11], u8, Vec<u8>)> {
    let mut cases = vec![
        (DISCONNECTED, 0x0E, vec![3, 6, 2]),
        (ASYNC, 0x0D, vec![]),
        (DISCONNECTED, 0x00, vec![]),
    ];
    for state in [ASYNC, SYNC] {
        cases.push((state, 0x00, vec![]));
        cases.push((state, 0x0F, vec![]));
        cases.push((state, 0x05, vec![0]));
        cases.push((state, 0x06, vec![0]));
        cases.push((state, 0x03, vec![9, 1, 8]));
        for size in 1..=8 {
            let data = vec![0xD7; usize::from(size)];
            cases.push((state, 0x01, vec![size, 1, size]));
            cases.push((state, 0x02, [vec![size, 1, size], data].concat()));
        }
    }
    cases
}

#[test]
fn each_octet_that_is_not_named_is_asked() {
    for (state, code, named) in cases() {
        let good = command(code, &named);
        assert_eq!(
            (told(1, state, good), told(2, state, good)),
            ((0, 0), (0, 0))
        );
        let fields = 4..4 + named.len();
        for at in (1..15).filter(|at| !fields.contains(at)) {
            for bit in 0..8 {
                let mut asked = good;
                asked[at] = 1 << bit;
                assert_eq!(told(1, state, asked), (0, 0));
                assert_eq!(told(2, state, asked), (9, at as u64));
                // All that is behind it is set as well.
                for later in (at + 1..15).filter(|later| !fields.contains(later)) {
                    asked[later] = 0xFF;
                }
                assert_eq!(told(2, state, asked), (9, at as u64));
            }
        }
    }
}

/// No bit of octet 2 is an identity here.
#[test]
fn octet_2_is_asked_whole() {
    for octet in 1..=255 {
        let mut asked = command(0x00, &[]);
        asked[2] = octet;
        assert_eq!(told(1, SYNC, asked), (0, 0));
        assert_eq!(told(2, SYNC, asked), (9, 2));
    }
}

/// In link 2 WDT may be anything at octet 15; at octet 1 there is none.
#[test]
fn wdt_is_named_at_octet_15() {
    for wdt in 0..=255 {
        let mut asked = command(0x00, &[]);
        asked[15] = wdt;
        assert_eq!(told(2, ASYNC, asked), (0, 0));
        asked[1] = wdt;
        let expected = if wdt == 0 { (0, 0) } else { (9, 1) };
        assert_eq!(told(2, ASYNC, asked), expected);
    }
}

/// The octet of the other type's profile is no field of CONNECT.
#[test]
fn the_profile_is_reserved() {
    for octet in 0..=255 {
        let asked = command(0x0E, &[3, 2, 1, octet]);
        let expected = if octet == 0 { (0, 0) } else { (9, 7) };
        assert_eq!(told(2, DISCONNECTED, asked), expected);
        assert_eq!(told(1, DISCONNECTED, asked), (0, 0));
    }
}

#[test]
fn the_order_is_that_of_the_enhanced_type() {
    for at in [1, 2, 3, 14] {
        let with = |state, code, named: &[u8]| {
            let mut asked = command(code, named);
            asked[at] = 8;
            told(2, state, asked)
        };
        let reserved = (9, at as u64);
        for state in [ASYNC, SYNC] {
            for code in [1, 2] {
                assert_eq!(with(state, code, &[1, 0, 1]), (9, 4));
                assert_eq!(with(state, code, &[2, 1, 1]), (9, 6));
                assert_eq!(with(state, code, &[9, 1, 9]), (9, 6));
                // Without the octet it is the right that is missing.
                assert_eq!(with(state, code, &[0, 2, 2]), reserved);
                assert_eq!(told(2, state, command(code, &[0, 2, 2])), (10, 1));
            }
            assert_eq!(with(state, 3, &[8, 0, 1]), (9, 4));
            assert_eq!(with(state, 3, &[9, 2, 8]), (9, 6));
            assert_eq!(with(state, 5, &[1]), (9, 4));
            assert_eq!(with(state, 6, &[0x80]), (9, 4));
            assert_eq!(with(state, 0x1D, &[]), (8, 0));
            assert_eq!(with(state, 0x0E, &[3, 2, 1]), (12, 0));
        }
        assert_eq!(with(DISCONNECTED, 0x0E, &[2, 2, 1]), (9, 4));
        assert_eq!(with(DISCONNECTED, 0x0E, &[3, 4, 1]), (9, 5));
        assert_eq!(with(DISCONNECTED, 0x0E, &[3, 6, 1]), (9, 6));
        assert_eq!(with(DISCONNECTED, 0x0E, &[3, 6, 2]), reserved);
        assert_eq!(with(DISCONNECTED, 0x01, &[1, 1, 1]), (12, 0));
    }
}

/// A failed cycle, which this sheet tolerates once, does not look at the command.
#[test]
fn the_watchdog_comes_first() {
    for failures in [0, 1] {
        let mut state = SYNC;
        state[10] = failures;
        for at in 1..15 {
            let mut asked = command(0x00, &[]);
            (asked[at], asked[15]) = (1, NEXT + 1);
            assert_eq!(told(2, state, asked), (0, 0));
        }
    }
}
