//! Request 7: the short type's fields at each bound and one past it, what is ignored, and its watchdog.

use super::exchange;

const DISCONNECTED: [u8; 11] = [0x12, 1, 16, 0, 0, 0, 0, 0, 0, 0, 0];
const ASYNC: [u8; 11] = [0x12, 2, 16, 0, 5, 0, 0, 0, 0, 0, 0];
const SYNC: [u8; 11] = [0x12, 3, 16, 1, 5, 1, 7, 4, 0, 0, 0];
/// The WDT that `SYNC` asks for.
const NEXT: u8 = 0x48;
const MEMORY: [u8; 12] = [
    0x41, 0x42, 0x43, 0x44, 0x45, 0x46, 0x47, 0x48, 0x49, 0x4A, 0x4B, 0x4C,
];

/// Version 3, profile 4; parameters 101 to 10C hex of 1 to 12 octets; items of 1 and 32 octets; this tolerance.
fn sheet(link: u8, tolerance: u8) -> Vec<u8> {
    let mut octets = vec![link, 16, 3, 4];
    octets.extend([2, 0, 0, 0, 0, 12, 0, 0, 0, 7]);
    for size in 1..=12 {
        octets.extend([3, size, 1, 0, 0, 0, 0, size]);
    }
    octets.extend([4, 9, 1, 0x61]);
    octets.extend([0; 31]);
    octets.extend([4, 10, 32]);
    octets.extend(0x61..=0x80);
    octets.extend([6, tolerance, 0]);
    octets
}

/// Answer, reply, state and memory of one exchange over old octets.
type Left = (u64, [u8; 16], [u8; 11], [u8; 12]);

fn after(tolerance: u8, state: [u8; 11], command: [u8; 16]) -> Left {
    let (mut state, mut memory, mut reply) = (state, MEMORY, [0xEE; 16]);
    let answer = exchange(
        &sheet(5, tolerance),
        &mut state,
        &mut memory,
        &command,
        &mut reply,
    );
    (answer, reply, state, memory)
}

/// Code, three reserve octets, the fields, and this WDT; all else is noise.
fn noisy(code: u8, fields: &[u8], wdt: u8) -> [u8; 16] {
    let mut command = [0; 16];
    for (at, octet) in command.iter_mut().enumerate() {
        *octet = 0xA7 ^ (at as u8).wrapping_mul(29);
    }
    command[0] = code;
    command[4..4 + fields.len()].copy_from_slice(fields);
    command[15] = wdt;
    command
}

/// Alarm and place in link 2 and, the same, in link 3.
fn told(code: u8, fields: &[u8]) -> (u8, u64) {
    let [one, other] = [(ASYNC, 0xEE), (SYNC, NEXT)].map(|(state, wdt)| {
        let (answer, reply, ..) = after(0, state, noisy(code, fields, wdt));
        assert_eq!(answer as u32, 0);
        (reply[1], answer >> 32)
    });
    assert_eq!(one, other);
    one
}

#[test]
fn a_parameter_of_eight_octets_has_room_and_one_of_nine_has_not() {
    for code in [1, 2] {
        for own in 1..=12 {
            for size in 0..=255 {
                let fits = size == own && own <= 8;
                let expected = if fits { (0, 0) } else { (9, 6) };
                assert_eq!(told(code, &[own, 1, size]), expected);
            }
            assert_eq!(told(code, &[own, 0, own]), (9, 4));
            assert_eq!(told(code, &[own, 2, own]), (9, 4));
        }
        assert_eq!(told(code, &[0, 1, 1]), (9, 4));
        assert_eq!(told(code, &[13, 1, 8]), (9, 4));
    }
}

#[test]
fn an_id_size_has_one_octet() {
    for (code, length) in [(9, 1), (10, 32)] {
        for offset in 0..=255u8 {
            for size in [0, 1, 2, 7, 8, 9, 31, 32, 33, 255] {
                let fits = (1..=8).contains(&size) && u16::from(offset) + size <= length;
                let expected = if fits { (0, 0) } else { (9, 6) };
                assert_eq!(told(3, &[code, offset, size as u8]), expected);
            }
        }
    }
    for code in (0..=255).filter(|code| ![9, 10].contains(code)) {
        assert_eq!(told(3, &[code, 0, 1]), (9, 4));
    }
}

#[test]
fn an_alarm_mode_has_one_octet() {
    for code in [5, 6] {
        for mode in 0..=255 {
            let expected = if mode == 0 { (0, 0) } else { (9, 4) };
            assert_eq!(told(code, &[mode]), expected);
            assert_eq!(told(code, &[mode, !mode]), expected);
        }
    }
}

#[test]
fn connect_names_version_com_mod_and_com_time_alone() {
    let connect = |fields: &[u8]| {
        let (answer, reply, ..) = after(0, DISCONNECTED, noisy(0x0E, fields, 0));
        (reply[1], answer >> 32)
    };
    for octet in 0..=255 {
        let version = if octet == 3 { (0, 0) } else { (9, 4) };
        assert_eq!(connect(&[octet, 2, 1]), version);
        let com_mod = if [0, 2, 6].contains(&octet) {
            (0, 0)
        } else {
            (9, 5)
        };
        assert_eq!(connect(&[3, octet, 2]), com_mod);
        let com_time = if octet >= 1 { (0, 0) } else { (9, 6) };
        assert_eq!(connect(&[3, 2, octet]), com_time);
        let com_time = if octet >= 2 { (0, 0) } else { (9, 6) };
        assert_eq!(connect(&[3, 6, octet]), com_time);
        assert_eq!(connect(&[3, 0, 1, octet]), (0, 0));
    }
    for (fields, place) in [([2, 4, 0], 4), ([3, 4, 0], 5), ([3, 6, 1], 6)] {
        assert_eq!(connect(&fields), (9, place));
    }
}

/// Octets 1 to 3 and every one that the command does not name, each with every value.
#[test]
fn what_a_command_does_not_name_is_ignored() {
    for (state, code, fields) in [
        (SYNC, 0x00, &[][..]),
        (SYNC, 0x01, &[3, 1, 3]),
        (SYNC, 0x02, &[3, 1, 3, 0x51, 0x52, 0x53]),
        (SYNC, 0x03, &[10, 4, 8]),
        (SYNC, 0x05, &[0]),
        (SYNC, 0x06, &[0]),
        (ASYNC, 0x0D, &[]),
        (DISCONNECTED, 0x0E, &[3, 2, 1]),
        (SYNC, 0x0F, &[]),
        (SYNC, 0x77, &[]),
    ] {
        let asked = noisy(code, fields, NEXT);
        let expected = after(0, state, asked);
        assert_eq!(expected.1[2..4], [4 | u8::from(code == 0x77), 0]);
        let named = 4..4 + fields.len();
        for at in (1..15).filter(|at| !named.contains(at)) {
            for octet in 0..=255 {
                let mut changed = asked;
                changed[at] = octet;
                assert_eq!(after(0, state, changed), expected);
            }
        }
    }
}

/// Every last MN and RSN with every WDT, which stands in octet 15 alone.
#[test]
fn the_watchdog_is_asked_at_octet_15() {
    for counters in 0..=255u8 {
        let (last_mn, rsn) = (counters & 15, counters >> 4);
        let state = [0x12, 3, 16, 1, 5, 1, last_mn, rsn, 0, 0, 0];
        let asked = rsn << 4 | (last_mn + 1) % 16;
        for wdt in 0..=255 {
            let mut command = noisy(0x00, &[], wdt);
            command[1] = asked;
            let (_, reply, next, _) = after(0, state, command);
            let (mn, next_rsn) = (wdt & 15, (rsn + 1) % 16);
            if wdt == asked {
                let rwdt = next_rsn << 4 | mn;
                assert_eq!(reply, [0, 0, 4, 0, 0, 0, 0, 0, 0, 0, 0, 0, 0, 0, 0, rwdt]);
                assert_eq!(next, [0x12, 3, 16, 1, 5, 1, mn, next_rsn, 0, 0, 0]);
            } else {
                assert_eq!(reply, [0, 0, 5, 0xC0, 0, 0, 0, 0, 0, 0, 0, 0, 0, 0, 0, 0]);
                assert_eq!(next, [0x12, 2, 16, 0, 5, 0, 0, 0, 0, 12, 0]);
            }
        }
    }
}

/// Status bit 1 in a tolerated failure, with a zero body and without the command's alarm.
#[test]
fn failures_are_tolerated_as_in_the_enhanced_type() {
    for tolerance in 0..=3 {
        for failures in 0..=tolerance {
            for (wdt, code) in [(0x49, 0x00), (0x58, 0x77), (0x99, 0x02), (0x47, 0x1D)] {
                let state = [0x12, 3, 16, 1, 5, 1, 7, 4, 9, 0, failures];
                let (answer, reply, next, memory) =
                    after(tolerance, state, noisy(code, &[3, 1, 3], wdt));
                assert_eq!((answer, memory), (0, MEMORY));
                if failures < tolerance {
                    let rwdt = 0x50 | wdt & 15;
                    assert_eq!(
                        reply,
                        [code, 0, 7, 0, 0, 0, 0, 0, 0, 0, 0, 0, 0, 0, 0, rwdt]
                    );
                    assert_eq!(
                        next,
                        [0x12, 3, 16, 1, 5, 1, wdt & 15, 5, 9, 0, failures + 1]
                    );
                } else {
                    assert_eq!(
                        reply,
                        [code, 0, 5, 0xC0, 0, 0, 0, 0, 0, 0, 0, 0, 0, 0, 0, 0]
                    );
                    assert_eq!(next, [0x12, 2, 16, 0, 5, 0, 0, 0, 9, 12, 0]);
                }
            }
        }
    }
}

/// The command of the enhanced type at L 16 with the same fields and data.
fn enhanced_of(short: [u8; 16]) -> [u8; 16] {
    let mut command = [0; 16];
    command[0] = short[0];
    command[1] = short[15];
    command[4..7].copy_from_slice(&short[4..7]);
    match short[0] {
        0x01 | 0x02 => command[8..].copy_from_slice(&short[7..15]),
        0x05 | 0x06 => command[5] = 0,
        0x0E => command[7] = 4,
        _ => (),
    }
    command
}

/// Alarm, place, next state, stored octets and RWDT are those of the enhanced type.
#[test]
fn the_same_fields_come_to_the_same_in_both_types() {
    let fields = [
        [3, 1, 3],
        [8, 1, 8],
        [9, 1, 9],
        [9, 0, 1],
        [10, 4, 8],
        [10, 4, 9],
        [0, 0, 0],
        [3, 2, 1],
        [3, 6, 1],
        [3, 6, 2],
    ];
    let known = [0x00, 0x01, 0x02, 0x03, 0x05, 0x06, 0x0D, 0x0E, 0x0F, 0x77];
    for state in [DISCONNECTED, ASYNC, SYNC] {
        for code in known {
            for asked in fields {
                for wdt in [NEXT, NEXT + 1] {
                    let short = noisy(code, &asked, wdt);
                    let (answer, reply, next, stored) = after(1, state, short);
                    let (mut state, mut memory, mut other) = (state, MEMORY, [0; 16]);
                    let told = exchange(
                        &sheet(1, 1),
                        &mut state,
                        &mut memory,
                        &enhanced_of(short),
                        &mut other,
                    );
                    assert_eq!((answer, next, stored), (told, state, memory));
                    let alarm = (other[3] & 15, other[3] & 0xF0, other[2], other[1]);
                    assert_eq!((reply[1], reply[3], reply[2], reply[15]), alarm);
                }
            }
        }
    }
}
