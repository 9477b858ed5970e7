//! Request 9: the record of eleven octets, and the call that turns an old one into it.

use super::{enable, exchange, replay, reset, turn, version};

/// L 16 without memory; two failures in a row are allowed.
const SHEET: [u8; 7] = [1, 16, 3, 4, 6, 2, 0];
const COMMAND: [u8; 16] = [0; 16];
/// A good old record of each link, and of link 3 with MN known.
const OLD: [[u8; 10]; 5] = [
    [0x11, 0, 16, 0, 0, 0, 0, 0, 0, 0],
    [0x11, 1, 16, 0, 0, 0, 0, 0, 8, 12],
    [0x11, 2, 16, 0, 255, 0, 0, 0, 9, 0],
    [0x11, 3, 16, 0, 1, 0, 0, 0, 10, 12],
    [0x11, 3, 16, 1, 2, 1, 15, 14, 12, 12],
];

/// The record of now with no failure counted.
fn new_of(old: [u8; 10]) -> [u8; 11] {
    let mut record = [0; 11];
    record[0] = 0x12;
    record[1..10].copy_from_slice(&old[1..]);
    record
}

/// The answer; the new record's octets are left as they were unless it is 0.
fn turned(sheet: &[u8], old: &[u8], state: &mut [u8]) -> u64 {
    let (old_before, state_before) = (old.to_vec(), state.to_vec());
    let answer = turn(sheet, old, state);
    assert_eq!(old, old_before);
    assert!(answer == 0 || state == state_before);
    answer
}

#[test]
fn the_version_is_3() {
    assert_eq!(version(), 3);
}

#[test]
fn a_good_old_record_gets_a_count_of_0() {
    for old in OLD {
        for content in [0, 0x12, 0xEE, 0xFF] {
            let mut state = [content; 11];
            assert_eq!(turned(&SHEET, &old, &mut state), 0);
            assert_eq!(state, new_of(old));
        }
        // The tolerance is not asked for: without one, and with the least and the most.
        for sheet in [
            &[1, 16, 3, 4, 0][..],
            &[1, 16, 3, 4, 6, 0, 0],
            &[1, 16, 3, 4, 6, 3, 0],
        ] {
            let mut state = [0xEE; 11];
            assert_eq!((turned(sheet, &old, &mut state), state), (0, new_of(old)));
        }
    }
}

#[test]
fn what_is_turned_goes_on() {
    let mut state = [0; 11];
    assert_eq!(turn(&SHEET, &OLD[0], &mut state), 0);
    assert_eq!(enable(&SHEET, &mut state), 0);
    assert_eq!(state, [0x12, 1, 16, 0, 0, 0, 0, 0, 0, 0, 0]);
    assert_eq!(turn(&SHEET, &OLD[4], &mut state), 0);
    let mut reply = [0xEE; 16];
    let mut lost = COMMAND;
    lost[1] = 0xE5;
    assert_eq!(exchange(&SHEET, &mut state, &mut [], &lost, &mut reply), 0);
    assert_eq!(state, [0x12, 3, 16, 1, 2, 1, 5, 15, 12, 12, 1]);
    assert_eq!(reply[..4], [0, 0xF5, 7, 0xC0]);
}

/// An old record is bad exactly where the new one, with count 0, would be.
#[test]
fn the_fields_are_asked_as_before() {
    let without_state = |state: [u8; 11]| {
        let (mut state, mut reply) = (state, [0; 16]);
        exchange(&SHEET, &mut state, &mut [], &COMMAND, &mut reply) as u32 == 1
    };
    for old in OLD {
        for at in 1..10 {
            for octet in 0..=255 {
                let mut changed = old;
                changed[at] = octet;
                let bad = without_state(new_of(changed));
                let mut state = [0xEE; 11];
                assert_eq!(turned(&SHEET, &changed, &mut state), u64::from(bad));
                assert!(bad || state == new_of(changed));
            }
        }
    }
}

#[test]
fn only_kind_11_is_turned() {
    for old in OLD {
        for kind in 0..=255 {
            let mut changed = old;
            changed[0] = kind;
            let answer = turned(&SHEET, &changed, &mut [0xEE; 11]);
            assert_eq!(answer, u64::from(kind != 0x11));
        }
    }
}

#[test]
fn every_other_length_is_refused() {
    for old in OLD {
        for old_length in 0..=12 {
            for state_length in 0..=13 {
                let mut lent = old.to_vec();
                lent.resize(old_length, 0);
                let answer = turned(&SHEET, &lent, &mut vec![0xEE; state_length]);
                let good = old_length == 10 && state_length == 11;
                assert_eq!(answer, u64::from(!good));
            }
        }
        // What is turned already is not turned again.
        assert_eq!(turned(&SHEET, &new_of(old), &mut [0xEE; 11]), 1);
        assert_eq!(turned(&SHEET, &new_of(old)[..10], &mut [0xEE; 11]), 1);
    }
}

#[test]
fn the_sheets_fault_comes_first() {
    for (sheet, answer) in [
        (&[][..], 11),
        (&SHEET[..6], 11 | 6 << 32),
        (&[1, 16, 3, 4, 6, 4, 0], 14 | 4 << 32),
        (&[6, 2, 0], 13),
    ] {
        for old in [&OLD[0][..], &OLD[0][..9], &[]] {
            for length in [0, 10, 11] {
                assert_eq!(turned(sheet, old, &mut vec![0xEE; length]), answer);
            }
        }
    }
    // Another sheet's L makes the record a bad one.
    assert_eq!(turned(&[1, 32, 3, 4, 0], &OLD[1], &mut [0xEE; 11]), 1);
}

/// Ten octets of kind 11, and the same kind in eleven.
#[test]
fn nothing_else_takes_an_old_record() {
    for old in OLD {
        for length in [10, 11] {
            let mut lent = old.to_vec();
            lent.resize(length, 0);
            let kept = lent.clone();
            assert_eq!((enable(&SHEET, &mut lent), &lent), (1, &kept));
            let mut reply = [0xEE; 16];
            let answer = exchange(&SHEET, &mut lent, &mut [], &COMMAND, &mut reply);
            assert_eq!((answer, &lent, reply), (1, &kept, [0xEE; 16]));
            assert_eq!((replay(&SHEET, &mut lent, &mut [], &[]), &lent), (1, &kept));
        }
    }
}

#[test]
fn reset_writes_eleven_octets() {
    for length in [0, 1, 9, 10, 11, 12, 20] {
        let mut state = vec![0xEE; length];
        let answer = reset(&SHEET, &mut state);
        if length == 11 {
            assert_eq!(answer, 0);
            assert_eq!(state, [0x12, 0, 16, 0, 0, 0, 0, 0, 0, 0, 0]);
        } else {
            assert_eq!((answer, state), (1, vec![0xEE; length]));
        }
    }
}
