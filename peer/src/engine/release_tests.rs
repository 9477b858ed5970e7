//! Request 13: the record of a release with every fault, and what each release ignores.

use super::{enable, exchange, lengths, replay, reset, sheet, turn};

const REGION: [u8; 10] = [2, 0, 0, 0, 0, 8, 0, 0, 0, 7];
const PARAMETER: [u8; 8] = [3, 9, 0, 0, 0, 0, 0, 8];

fn item() -> Vec<u8> {
    let mut record = vec![4, 1, 1, 0x55];
    record.resize(35, 0);
    record
}

fn at(number: u64, place: usize) -> u64 {
    number | (place as u64) << 32
}

/// Sheets of both types without their end: of no, some and all kinds.
fn bodies() -> Vec<Vec<u8>> {
    let mut bodies = Vec::new();
    for link in [[1, 16, 3, 4], [5, 16, 3, 4]] {
        bodies.push(link.to_vec());
        bodies.push([&link[..], &REGION].concat());
        bodies.push([&link[..], &REGION, &PARAMETER].concat());
        bodies.push([&link[..], &item()].concat());
        bodies.push([&link[..], &REGION, &PARAMETER, &item()].concat());
        bodies.push([&link[..], &[6, 0]].concat());
        bodies.push([&link[..], &REGION, &PARAMETER, &item(), &[6, 3]].concat());
    }
    bodies
}

fn with(body: &[u8], more: &[u8]) -> u64 {
    sheet(&[body, more].concat())
}

#[test]
fn a_release_is_1_or_2() {
    for body in bodies() {
        for release in 0..=255 {
            let good = release == 1 || release == 2;
            let told = if good { 0 } else { at(14, body.len()) };
            assert_eq!(with(&body, &[7, release, 0]), told);
        }
        let octets = [&body[..], &[7, 2, 0]].concat();
        let without = [&body[..], &[0]].concat();
        assert_eq!(lengths(&octets), lengths(&without));
    }
}

/// Behind it the end alone is in place, a tolerance and a second one are not, of either value.
#[test]
fn a_release_stands_before_the_end_and_once() {
    for body in bodies() {
        for release in [1, 2] {
            let before = [&body[..], &[7, release]].concat();
            let place = at(13, before.len());
            for behind in [
                &[1, 16, 3, 4][..],
                &[5, 16, 3, 4],
                &[2, 8, 0, 0, 0, 1, 0, 0, 0, 7],
                &[3, 10, 0, 0, 0, 0, 0, 8],
                &item(),
                &[6, 1],
                &[7, 1],
                &[7, 2],
            ] {
                // Whole, before an end, and cut behind its kind.
                assert_eq!(with(&before, behind), place);
                assert_eq!(with(&before, &[behind, &[0]].concat()), place);
                assert_eq!(with(&before, &behind[..1]), place);
            }
            assert_eq!(with(&before, &[0, 7, release]), at(13, before.len() + 1));
        }
    }
    for first in [&[7][..], &[7, 1], &[7, 2, 0], &[7, 1, 1, 16, 3, 4, 0]] {
        assert_eq!(sheet(first), 13);
    }
}

/// Kind, place, cut and range in this order.
#[test]
fn which_fault_of_a_release_is_told() {
    for body in bodies() {
        let (here, next) = (body.len(), body.len() + 2);
        assert_eq!(with(&body, &[7]), at(11, here));
        assert_eq!(with(&body, &[7, 1]), at(11, next));
        assert_eq!(with(&body, &[7, 0]), at(14, here));
        assert_eq!(with(&body, &[7, 3, 7]), at(14, here));
        assert_eq!(with(&body, &[7, 255, 6, 9]), at(14, here));
        assert_eq!(with(&body, &[7, 1, 7]), at(13, next));
        assert_eq!(with(&body, &[7, 2, 7, 3]), at(13, next));
        assert_eq!(with(&body, &[7, 2, 6, 4]), at(13, next));
        for kind in 8..=255 {
            assert_eq!(with(&body, &[7, 1, kind, 1]), at(12, next));
        }
    }
}

#[test]
fn every_call_tells_its_fault() {
    let (bad, mut state) = (
        [1, 16, 3, 4, 7, 3, 0],
        [0x12, 2, 16, 0, 1, 0, 0, 0, 0, 0, 0],
    );
    let (kept, old, fault) = (state, [0x11, 2, 16, 0, 1, 0, 0, 0, 0, 0], at(14, 4));
    assert_eq!((sheet(&bad), lengths(&bad)), (fault, 0));
    assert_eq!(reset(&bad, &mut state), fault);
    assert_eq!(enable(&bad, &mut state), fault);
    assert_eq!(turn(&bad, &old, &mut state), fault);
    let told = exchange(&bad, &mut state, &mut [], &[0; 16], &mut [0; 16]);
    assert_eq!(told, fault);
    assert_eq!(replay(&bad, &mut state, &mut [], &[]), fault);
    assert_eq!(state, kept);
}

/// Answer, reply, state and memory of an exchange beside this release record.
fn left(link: u8, release: &[u8], octets: [u8; 16]) -> (u64, [u8; 16], [u8; 11], [u8; 8]) {
    let sheet = [&[link, 16, 3, 4][..], &REGION, &PARAMETER, release, &[0]].concat();
    let (mut state, mut memory, mut reply) = (
        [0x12, 2, 16, 0, 1, 0, 0, 0, 0, 0, 0],
        [1, 2, 3, 4, 5, 6, 7, 8],
        [0xEE; 16],
    );
    let answer = exchange(&sheet, &mut state, &mut memory, &octets, &mut reply);
    (answer, reply, state, memory)
}

/// Release 1 is what a sheet without the record has, whatever the octets hold.
#[test]
fn a_release_of_1_is_none() {
    for link in [1, 5] {
        for code in 0..=255 {
            for noise in [0, 1, 0x80, 0xFF] {
                let mut octets = [noise; 16];
                octets[0] = code;
                octets[4..7].copy_from_slice(&[9, 0, 8]);
                assert_eq!(left(link, &[7, 1], octets), left(link, &[], octets));
            }
        }
    }
}

/// "For any command whose unnamed octets are zero, everything is the same", refused or not.
#[test]
fn a_release_of_2_is_none_where_the_octets_are_zero() {
    for link in [1, 5] {
        let same = |octets: [u8; 16]| {
            assert_eq!(left(link, &[7, 2], octets), left(link, &[], octets));
        };
        for code in 0..=255 {
            let mut octets = [0; 16];
            octets[0] = code;
            same(octets);
        }
        for code in [1, 2, 3] {
            for fields in [[9, 0, 8], [9, 0, 7], [9, 1, 8], [1, 0, 1], [1, 0, 2]] {
                let mut octets = [0; 16];
                octets[0] = code;
                octets[4..7].copy_from_slice(&fields);
                same(octets);
            }
        }
    }
}
