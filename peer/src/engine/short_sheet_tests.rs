//! Request 7: the record of kind 05 in the link record's place, with every fault.

use super::{enable, exchange, lengths, replay, reset, sheet, turn};

const REGION: [u8; 10] = [2, 0, 0, 0, 0, 8, 0, 0, 0, 7];
const PARAMETER: [u8; 8] = [3, 9, 0, 0, 0, 0, 0, 8];

fn item() -> Vec<u8> {
    let mut record = vec![4, 1, 1, 0x55];
    record.resize(35, 0);
    record
}

fn at(number: u64, place: u64) -> u64 {
    number | place << 32
}

#[test]
fn a_sheet_of_the_short_type_is_read_as_any_other() {
    assert_eq!(
        (sheet(&[5, 16, 3, 4, 0]), lengths(&[5, 16, 3, 4, 0])),
        (0, 16)
    );
    let whole = [&[5, 16, 3, 4][..], &REGION, &PARAMETER, &item(), &[6, 3, 0]].concat();
    assert_eq!((sheet(&whole), lengths(&whole)), (0, 16 | 8 << 32));
    // Version and profile may be anything, though no command names the profile.
    for octet in 0..=255 {
        assert_eq!(sheet(&[5, 16, octet, !octet, 0]), 0);
    }
}

#[test]
fn l_16_is_its_only_length() {
    for length in 0..=255 {
        let fault = if length == 16 { 0 } else { 14 };
        assert_eq!(sheet(&[5, length, 3, 4, 0]), fault);
        // Its range is told before what comes behind it, the sheet's end too.
        assert_eq!(
            sheet(&[5, length, 3, 4, 0, 0]),
            if fault == 0 { at(13, 5) } else { 14 }
        );
        assert_eq!(
            sheet(&[5, length, 3, 4]),
            if fault == 0 { at(11, 4) } else { 14 }
        );
        let known = [8, 16, 32, 48, 64].contains(&length);
        assert_eq!(sheet(&[1, length, 3, 4, 0]), if known { 0 } else { 14 });
    }
}

#[test]
fn it_is_cut_at_its_first_octet() {
    assert_eq!(sheet(&[5]), 11);
    assert_eq!(sheet(&[5, 16]), 11);
    assert_eq!(sheet(&[5, 32, 3]), 11);
    assert_eq!(sheet(&[5, 16, 3, 4]), at(11, 4));
}

/// In either order, twice, cut, or with an L of the other.
#[test]
fn of_kinds_01_and_05_a_sheet_has_one() {
    for first in [1, 5] {
        for second in [1, 5] {
            for length in [8, 16, 32, 99] {
                let two = [first, 16, 3, 4, second, length, 3, 4, 0];
                for end in 5..=9 {
                    assert_eq!(sheet(&two[..end]), at(13, 4));
                }
            }
        }
    }
    // The first one's range comes first.
    assert_eq!(sheet(&[5, 32, 3, 4, 1, 32, 3, 4, 0]), 14);
    assert_eq!(sheet(&[1, 32, 3, 4, 5, 16, 3, 4, 0]), at(13, 4));
}

#[test]
fn behind_other_records_it_is_out_of_place() {
    let whole = [
        &[5, 16, 3, 4][..],
        &REGION,
        &PARAMETER,
        &item(),
        &[6, 3],
        &[0],
    ];
    let mut before = 0;
    for count in 1..=whole.len() {
        before += whole[count - 1].len() as u64;
        for link in [&[5, 16, 3, 4][..], &[5, 15, 3, 4], &[5]] {
            let sheet_with = [whole[..count].concat(), link.to_vec()].concat();
            assert_eq!(sheet(&sheet_with), at(13, before));
        }
    }
    for first in [&REGION[..], &PARAMETER, &item(), &[6, 3], &[0]] {
        assert_eq!(sheet(&[first, &[5, 16, 3, 4, 0]].concat()), 13);
    }
}

/// Kind 05 is known now, and those from 08 on are not.
#[test]
fn the_other_kinds_stay_as_they_were() {
    for link in [1, 5] {
        for kind in 8..=255 {
            assert_eq!(sheet(&[link, 16, 3, 4, kind, 16, 3, 4, 0]), at(12, 4));
            assert_eq!(sheet(&[kind, 16, 3, 4, 0]), 12);
        }
        let overlap = [&[link, 16, 3, 4][..], &REGION, &REGION, &[0]].concat();
        assert_eq!(sheet(&overlap), at(15, 14));
        let unmapped = [&[link, 16, 3, 4][..], &PARAMETER, &[0]].concat();
        assert_eq!(sheet(&unmapped), at(17, 4));
    }
}

#[test]
fn every_call_tells_its_fault() {
    let (bad, mut state) = ([5, 32, 3, 4, 0], [0x12, 2, 32, 0, 1, 0, 0, 0, 0, 0, 0]);
    let (kept, old) = (state, [0x11, 2, 32, 0, 1, 0, 0, 0, 0, 0]);
    assert_eq!((sheet(&bad), lengths(&bad)), (14, 0));
    assert_eq!(reset(&bad, &mut state), 14);
    assert_eq!(enable(&bad, &mut state), 14);
    assert_eq!(turn(&bad, &old, &mut state), 14);
    assert_eq!(
        exchange(&bad, &mut state, &mut [], &[0; 32], &mut [0; 32]),
        14
    );
    assert_eq!(replay(&bad, &mut state, &mut [], &[]), 14);
    assert_eq!(state, kept);
}

/// The state record is that of the enhanced type, with L 16.
#[test]
fn states_are_those_of_the_enhanced_type() {
    let short = [5, 16, 3, 4, 6, 2, 0];
    let mut state = [0xEE; 11];
    assert_eq!(reset(&short, &mut state), 0);
    assert_eq!(state, [0x12, 0, 16, 0, 0, 0, 0, 0, 0, 0, 0]);
    assert_eq!(enable(&short, &mut state), 0);
    assert_eq!(state, [0x12, 1, 16, 0, 0, 0, 0, 0, 0, 0, 0]);
    let old = [0x11, 3, 16, 1, 2, 1, 15, 14, 12, 12];
    assert_eq!(turn(&short, &old, &mut state), 0);
    assert_eq!(state, [0x12, 3, 16, 1, 2, 1, 15, 14, 12, 12, 0]);
    for length in (0..=255).filter(|&length| length != 16) {
        let mut other = state;
        other[2] = length;
        assert_eq!(
            exchange(&short, &mut other, &mut [], &[0; 16], &mut [0; 16]),
            1
        );
    }
    for (command, reply, answer) in [
        (15, 16, 3),
        (17, 16, 3),
        (16, 15, 4),
        (16, 17, 4),
        (15, 15, 3),
    ] {
        let told = exchange(
            &short,
            &mut state,
            &mut [],
            &vec![0; command],
            &mut vec![0; reply],
        );
        assert_eq!(told, answer);
    }
}
