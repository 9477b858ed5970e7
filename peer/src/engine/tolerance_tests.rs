//! Request 9: failures in a row that a sheet allows, and the count of them.

use super::{exchange, replay};

/// Without the record, and with each value.
const TOLERANCES: [Option<u8>; 5] = [None, Some(0), Some(1), Some(2), Some(3)];
const MEMORY: [u8; 4] = [0x31, 0x32, 0x33, 0x34];
/// The WDT that `counting` asks for, and three that fail, by MN, by SN and by both.
const NEXT: u8 = 0x48;
const FAILING: [u8; 3] = [0x49, 0x58, 0x00];
/// A lost cycle's state from `counting`.
const LOST: [u8; 11] = [0x12, 2, 16, 0, 5, 0, 0, 0, 0, 12, 0];

/// L 16, version 3, profile 4; three octets with all rights and one with none.
fn sheet(tolerance: Option<u8>) -> Vec<u8> {
    let mut octets = vec![1, 16, 3, 4];
    octets.extend([2, 0, 0, 0, 0, 3, 0, 0, 0, 7]);
    octets.extend([2, 3, 0, 0, 0, 1, 0, 0, 0, 0]);
    if let Some(failures) = tolerance {
        octets.extend([6, failures]);
    }
    octets.push(0);
    octets
}

/// Link 3 with dual transfer, last MN 7 and RSN 4, after so many failures.
fn counting(failures: u8) -> [u8; 11] {
    [0x12, 3, 16, 1, 5, 1, 7, 4, 0, 0, failures]
}

fn command(octets: &[u8]) -> [u8; 16] {
    let mut command = [0; 16];
    command[..octets.len()].copy_from_slice(octets);
    command
}

/// MEM_WR of two octets.
fn write(wdt: u8) -> [u8; 16] {
    command(&[0x1E, wdt, 0, 0, 0, 0x11, 2, 0, 1, 0, 0, 0, 0x71, 0x72])
}

/// Answer, reply, state and memory of one exchange over old octets.
type Left = (u64, [u8; 16], [u8; 11], [u8; 4]);

fn after(tolerance: Option<u8>, state: [u8; 11], command: [u8; 16]) -> Left {
    let (mut state, mut memory, mut reply) = (state, MEMORY, [0xEE; 16]);
    let sheet = sheet(tolerance);
    let answer = exchange(&sheet, &mut state, &mut memory, &command, &mut reply);
    (answer, reply, state, memory)
}

/// What a tolerated failure leaves of `counting`, with these latches and failures before it.
fn tolerated(command: [u8; 16], latches: [u8; 2], failures: u8) -> Left {
    let mn = command[1] & 15;
    let status = 6 | u8::from(latches != [0, 0]);
    let head = [command[0], 0x50 | mn, status, latches[1] << 4];
    let [one, other] = latches;
    let state = [0x12, 3, 16, 1, 5, 1, mn, 5, one, other, failures + 1];
    (0, self::command(&head), state, MEMORY)
}

/// Every tolerance with every count and every WDT.
#[test]
fn the_sheet_allows_so_many_failures_and_no_more() {
    for tolerance in TOLERANCES {
        let allowed = tolerance.unwrap_or(0);
        for failures in 0..=4 {
            for wdt in 0..=255 {
                let (start, asked) = (counting(failures), write(wdt));
                let expected = if failures > allowed {
                    (1, [0xEE; 16], start, MEMORY)
                } else if wdt == NEXT {
                    let (mut reply, mut state) = (asked, start);
                    reply[1..3].copy_from_slice(&[0x58, 4]);
                    state[6..].copy_from_slice(&[8, 5, 0, 0, 0]);
                    (0, reply, state, [0x31, 0x71, 0x72, 0x34])
                } else if failures < allowed {
                    tolerated(asked, [0, 0], failures)
                } else {
                    (0, command(&[0x1E, 0, 5, 0xC0]), LOST, MEMORY)
                };
                assert_eq!(after(tolerance, start, asked), expected);
            }
        }
    }
}

#[test]
fn no_code_is_executed_or_refused_within_it() {
    for code in 0..=255 {
        // Data that each of the codes would take, and some that none would.
        for body in [[3, 2, 5, 4], [0, 0, 0, 0], [0, 0x11, 2, 0], [0xFF; 4]] {
            for wdt in FAILING {
                let mut asked = command(&[code, wdt, 0, 0]);
                asked[4..8].copy_from_slice(&body);
                let expected = tolerated(asked, [0, 0], 1);
                assert_eq!(after(Some(2), counting(1), asked), expected);
            }
        }
    }
}

#[test]
fn the_latches_stay_and_are_told() {
    for command_latch in [0, 8, 9, 10, 12] {
        for communication_latch in [0, 12] {
            let latches = [command_latch, communication_latch];
            let mut start = counting(0);
            start[8..10].copy_from_slice(&latches);
            for code in [0x00, 0x05, 0x06, 0x0F, 0x77] {
                let asked = command(&[code, FAILING[0]]);
                assert_eq!(after(Some(1), start, asked), tolerated(asked, latches, 0));
            }
        }
    }
}

#[test]
fn the_identity_comes_back_and_no_other_bit() {
    for octet_2 in 0..=255 {
        let asked = command(&[0x00, FAILING[1], octet_2, !octet_2]);
        let mut expected = tolerated(asked, [0, 0], 2);
        expected.1[2] |= octet_2 & 0xC0;
        assert_eq!(after(Some(3), counting(2), asked), expected);
    }
}

/// Bit 1 is of a tolerated failure alone.
#[test]
fn no_other_reply_has_bit_1() {
    for tolerance in TOLERANCES {
        for code in 0..=255 {
            let (_, reply, ..) = after(tolerance, counting(0), command(&[code, NEXT]));
            assert_eq!(reply[2] & 2, 0);
        }
        let past = counting(tolerance.unwrap_or(0));
        let (_, reply, ..) = after(tolerance, past, command(&[0, FAILING[2]]));
        assert_eq!(reply[2..4], [5, 0xC0]);
    }
}

/// The WDT that this state asks for, with so much added to its MN and its SN.
fn wrong_by(state: [u8; 11], mn: u8, sn: u8) -> u8 {
    let (mn, sn) = ((state[6] + 1 + mn) % 16, (state[7] + sn) % 16);
    sn << 4 | mn
}

/// The state after one NOP with this WDT, whose reply has this octet 2.
fn step(tolerance: Option<u8>, state: [u8; 11], wdt: u8, status: u8) -> [u8; 11] {
    let (answer, reply, next, _) = after(tolerance, state, command(&[0x00, wdt]));
    assert_eq!((answer, reply[2]), (0, status));
    if next[1] == 3 {
        assert_eq!(reply[1], next[7] << 4 | wdt & 15);
        assert_eq!(next[5..8], [1, wdt & 15, (state[7] + 1) % 16]);
    }
    next
}

/// From every RSN, so that it runs over 15; each failure is counted from its own MN and RSN.
#[test]
fn a_run_ends_with_one_failure_more() {
    for tolerance in TOLERANCES {
        let allowed = tolerance.unwrap_or(0);
        for (mn, sn) in [(1, 0), (15, 0), (0, 1), (0, 15), (3, 9)] {
            for rsn in 0..16 {
                let mut state = counting(0);
                state[7] = rsn;
                for failures in 1..=allowed {
                    state = step(tolerance, state, wrong_by(state, mn, sn), 6);
                    assert_eq!((state[1], state[10]), (3, failures));
                }
                assert_eq!(step(tolerance, state, wrong_by(state, mn, sn), 5), LOST);
            }
        }
    }
}

/// A NOP, and commands with alarms 8, 9, 10 and 12.
fn passing() -> [([u8; 16], u8); 5] {
    [
        (command(&[0x00]), 0),
        (command(&[0x77]), 8),
        (command(&[0x06, 0, 0, 0, 1]), 9),
        (command(&[0x1D, 0, 0, 0, 0, 0x11, 1, 0, 3]), 10),
        (command(&[0x0D]), 12),
    ]
}

#[test]
fn an_exchange_that_passes_starts_the_count_anew() {
    for allowed in 1..=3 {
        for failures in 0..=allowed {
            for (mut asked, alarm) in passing() {
                asked[1] = NEXT;
                let (answer, reply, next, _) = after(Some(allowed), counting(failures), asked);
                assert_eq!((answer as u32, reply[3] & 15), (0, alarm));
                assert_eq!(next[..9], [0x12, 3, 16, 1, 5, 1, 8, 5, alarm]);
                assert_eq!(next[10], 0);
                let mut state = next;
                let status = 6 | u8::from(alarm != 0);
                for count in 1..=allowed {
                    state = step(Some(allowed), state, wrong_by(state, 1, 0), status);
                    assert_eq!(state[10], count);
                }
            }
        }
    }
}

#[test]
fn leaving_link_3_leaves_no_count() {
    let (answer, reply, state, _) = after(Some(3), counting(2), command(&[0x0F, NEXT]));
    assert_eq!((answer, reply), (0, command(&[0x0F, 0, 4, 0])));
    assert_eq!(state, [0x12, 1, 16, 0, 0, 0, 0, 0, 0, 0, 0]);
    let (answer, reply, state, _) = after(Some(3), counting(3), command(&[0x0F, 0]));
    assert_eq!((answer, reply), (0, command(&[0x0F, 0, 5, 0xC0])));
    assert_eq!(state, LOST);
}

#[test]
fn no_failure_is_counted_while_mn_is_not_known() {
    let unknown = [0x12, 3, 16, 1, 5, 0, 0, 0, 0, 0, 0];
    for wdt in 0..=255 {
        let (answer, reply, state, _) = after(Some(3), unknown, command(&[0x00, wdt]));
        let mn = wdt & 15;
        assert_eq!((answer, reply), (0, command(&[0, 0x10 | mn, 4, 0])));
        assert_eq!(state, [0x12, 3, 16, 1, 5, 1, mn, 1, 0, 0, 0]);
    }
}

#[test]
fn a_count_is_valid_in_link_3_with_mn_known_alone() {
    let others = [
        [0x12, 1, 16, 0, 0, 0, 0, 0, 0, 0, 0],
        [0x12, 2, 16, 0, 5, 0, 0, 0, 0, 0, 0],
        [0x12, 3, 16, 0, 5, 0, 0, 0, 0, 0, 0],
    ];
    for state in others {
        for failures in 0..=255 {
            let mut counted = state;
            counted[10] = failures;
            let (answer, ..) = after(Some(3), counted, command(&[0x00]));
            assert_eq!(answer, u64::from(failures != 0));
        }
    }
    for failures in 0..=255 {
        let (answer, ..) = after(Some(3), counting(failures), command(&[0x00]));
        assert_eq!(answer, u64::from(failures > 3));
    }
}

/// Failed, failed and passed; then failed three times, which the sheet does not allow.
#[test]
fn a_replay_tolerates_what_an_exchange_does() {
    let (octets, mut trace, mut state) = (sheet(Some(2)), Vec::new(), counting(0));
    let mut memory = MEMORY;
    for mn in [1, 1, 0, 1, 1, 1] {
        let (asked, mut reply) = (write(wrong_by(state, mn, 0)), [0; 16]);
        exchange(&octets, &mut state, &mut memory, &asked, &mut reply);
        trace.push(0x22);
        trace.extend(asked);
        trace.extend(reply);
    }
    assert_eq!(state, LOST);
    let (mut start, mut replayed) = (counting(0), MEMORY);
    let answer = replay(&octets, &mut start, &mut replayed, &trace);
    assert_eq!((answer, start, replayed), (6 << 32, LOST, memory));
    // Where fewer are allowed, the second record's reply is another, from its RWDT on.
    let (mut start, mut replayed) = (counting(0), MEMORY);
    let answer = replay(&sheet(Some(1)), &mut start, &mut replayed, &trace);
    assert_eq!(answer, 34 | (64 + 1) << 32);
    assert_eq!((start[10], replayed), (1, MEMORY));
}
