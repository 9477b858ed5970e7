//! Request 2: each form of an entry, field by field, and the refusals.

use super::difference;

const LINK: [u8; 4] = [1, 16, 0x30, 5];
const REGION: [u8; 10] = [2, 0x04, 0x10, 0, 0, 8, 0, 0, 0, 7];
const PARAMETER: [u8; 8] = [3, 7, 1, 0x04, 0x10, 0, 0, 2];

fn item(code: u8, octets: &[u8]) -> Vec<u8> {
    let mut record = vec![4, code, octets.len() as u8];
    record.extend(octets);
    record.resize(35, 0);
    record
}

/// A sheet of these records behind a link record and a region.
fn with(records: &[&[u8]]) -> Vec<u8> {
    [&LINK[..], &REGION, &records.concat(), &[0]].concat()
}

fn at(number: u64, place: usize) -> u64 {
    number | (place as u64) << 32
}

/// The list, which every shorter buffer refuses, untouched, and a longer one keeps octets behind.
fn list(first: &[u8], second: &[u8]) -> Vec<u8> {
    let length = (difference(first, second, &mut [0; 4096]) >> 32) as usize;
    for room in 0..length {
        let mut short = vec![0xA5; room];
        assert_eq!(difference(first, second, &mut short), at(28, length));
        assert_eq!(short, vec![0xA5; room]);
    }
    let mut lent = vec![0xA5; length + 3];
    assert_eq!(difference(first, second, &mut lent), at(0, length));
    assert_eq!(lent.split_off(length), [0xA5; 3]);
    let mut fitting = vec![0; length];
    assert_eq!(difference(first, second, &mut fitting), at(0, length));
    assert_eq!(fitting, lent);
    lent
}

#[test]
fn equal_sheets_have_an_empty_list() {
    let sheet = with(&[&PARAMETER, &item(9, &[1, 2]), &[6, 2], &[7, 1]]);
    assert_eq!(list(&sheet, &sheet), []);
    assert_eq!(difference(&sheet, &sheet, &mut []), 0);
}

#[test]
fn a_record_of_each_kind_goes_and_comes() {
    let first = with(&[]);
    let entries: [(&[u8], &[u8]); 5] = [
        (
            &[2, 0x0C, 0x10, 0, 0, 1, 0, 0, 0, 3],
            &[0x42, 0x0C, 0x10, 0, 0],
        ),
        (&PARAMETER, &[0x43, 7, 1]),
        (&item(9, &[1, 2]), &[0x44, 9]),
        (&[6, 0], &[0x46]),
        (&[7, 1], &[0x47]),
    ];
    for (record, gone) in entries {
        let second = with(&[record]);
        assert_eq!(list(&second, &first), gone);
        let new = [&[0x50 | record[0]], &record[1..]].concat();
        assert_eq!(list(&first, &second), new);
    }
}

/// Each single field, and all that a record of the same key can change.
#[test]
fn a_changed_record_tells_its_fields_and_its_new_body() {
    let (old, long) = (item(9, &[1, 2]), item(9, &[1, 2, 0]));
    let (other, both) = (item(9, &[1, 3]), item(9, &[0, 0, 4]));
    let changes: [(u8, &[u8], &[u8]); 11] = [
        (2, &PARAMETER, &[3, 7, 1, 0x05, 0x10, 0, 0, 2]),
        (4, &PARAMETER, &[3, 7, 1, 0x04, 0x10, 0, 0, 8]),
        (6, &PARAMETER, &[3, 7, 1, 0x05, 0x10, 0, 0, 7]),
        (2, &old, &long),
        (4, &old, &other),
        (6, &old, &both),
        (1, &[6, 0], &[6, 3]),
        (1, &[7, 2], &[7, 1]),
        (
            2,
            &[2, 0, 0x20, 0, 0, 1, 0, 0, 0, 7],
            &[2, 0, 0x20, 0, 0, 0, 1, 0, 0, 7],
        ),
        (
            4,
            &[2, 0, 0x20, 0, 0, 1, 0, 0, 0, 7],
            &[2, 0, 0x20, 0, 0, 1, 0, 0, 0, 0],
        ),
        (
            6,
            &[2, 0, 0x20, 0, 0, 1, 0, 0, 0, 7],
            &[2, 0, 0x20, 0, 0, 2, 0, 0, 0, 6],
        ),
    ];
    for (bits, old, new) in changes {
        let entry = [&[0x60 | new[0], bits], &new[1..]].concat();
        assert_eq!(list(&with(&[old]), &with(&[new])), entry);
    }
}

#[test]
fn a_link_record_has_no_key_and_three_fields() {
    let link = |l, version, profile| vec![1, l, version, profile, 0];
    let first = link(16, 3, 4);
    assert_eq!(list(&first, &link(8, 3, 4)), [0x61, 1, 8, 3, 4]);
    assert_eq!(list(&first, &link(16, 0, 4)), [0x61, 2, 16, 0, 4]);
    assert_eq!(list(&first, &link(16, 3, 255)), [0x61, 4, 16, 3, 255]);
    assert_eq!(list(&first, &link(64, 4, 3)), [0x61, 7, 64, 4, 3]);
    let short = |version, profile| vec![5, 16, version, profile, 0];
    assert_eq!(list(&short(3, 4), &short(3, 5)), [0x65, 4, 16, 3, 5]);
}

#[test]
fn a_link_record_of_the_other_type_is_gone_and_then_new() {
    let (enhanced, short) = ([1, 16, 3, 4, 0], [5, 16, 3, 4, 0]);
    assert_eq!(list(&enhanced, &short), [0x41, 0x55, 16, 3, 4]);
    assert_eq!(list(&short, &enhanced), [0x45, 0x51, 16, 3, 4]);
}

/// The first sheet's fault before the second's, both before a buffer without room.
#[test]
fn faults_of_both_sheets_are_told_apart() {
    let good = with(&[&PARAMETER]);
    let faults: [(u64, &[u8]); 7] = [
        (11, &PARAMETER[..5]),
        (12, &[8]),
        (13, &[1, 16, 0, 0]),
        (14, &[6, 4]),
        (15, &REGION),
        (16, &[2, 0, 0, 2, 0, 0, 0, 1, 0, 7]),
        (17, &[3, 7, 0, 0, 0, 0, 0, 1]),
    ];
    for (number, record) in faults {
        let bad = [&LINK[..], &REGION, record].concat();
        for other in [&good[..], &[], &bad, &[9]] {
            refused(&bad, other, at(number, 14));
        }
        refused(&good, &bad, at(number + 10, 14));
    }
    refused(&[], &good, at(11, 0));
    refused(&good, &[], at(21, 0));
    refused(&good, &[&good[..], &[0]].concat(), at(23, good.len()));
    refused(&good, &[1; 2049], at(21, 0));
}

fn refused(first: &[u8], second: &[u8], answer: u64) {
    for room in [0, 1, 60, 3000] {
        let mut lent = vec![0xA5; room];
        assert_eq!(difference(first, second, &mut lent), answer);
        assert_eq!(lent, vec![0xA5; room]);
    }
}
