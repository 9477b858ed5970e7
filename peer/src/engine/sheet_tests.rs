//! Every fault of the sheet with its place, and which of two faults is told.

use super::{lengths, sheet};

const LINK: &[u8] = &[1, 16, 0x30, 0];
const END: &[u8] = &[0];

fn region(start: u32, length: u32, rights: u8) -> Vec<u8> {
    let mut record = vec![2];
    record.extend_from_slice(&start.to_le_bytes());
    record.extend_from_slice(&length.to_le_bytes());
    record.push(rights);
    record
}

fn parameter(number: u16, address: u32, size: u8) -> Vec<u8> {
    let mut record = vec![3];
    record.extend_from_slice(&number.to_le_bytes());
    record.extend_from_slice(&address.to_le_bytes());
    record.push(size);
    record
}

fn item(code: u8, length: u8) -> Vec<u8> {
    let mut record = vec![4, code, length];
    record.resize(35, 0);
    record
}

fn tolerance(failures: u8) -> Vec<u8> {
    vec![6, failures]
}

fn sheet_of(records: &[Vec<u8>]) -> Vec<u8> {
    let mut octets = LINK.to_vec();
    records.iter().for_each(|record| octets.extend(record));
    octets.extend(END);
    octets
}

/// The fault of the link, these records and the end.
fn fault(records: &[Vec<u8>]) -> (u64, u64) {
    let answer = sheet(&sheet_of(records));
    (answer & 0xFFFF_FFFF, answer >> 32)
}

#[test]
fn smallest_sheet_has_no_memory() {
    assert_eq!(fault(&[]), (0, 0));
    assert_eq!(lengths(&sheet_of(&[])), 16);
    assert_eq!(lengths(&[]), 0);
    let octets = sheet_of(&[region(9, 7, 0), region(16, 65_529, 7)]);
    assert_eq!(lengths(&octets), 16 | 65_536 << 32);
}

#[test]
fn length_of_the_sheet() {
    let mut octets = sheet_of(&[]);
    octets.resize(2048, 0);
    assert_eq!(sheet(&octets), 13 | 5 << 32);
    octets.resize(2049, 0);
    assert_eq!(sheet(&octets), 11);
}

#[test]
fn kinds_and_their_places() {
    assert_eq!(sheet(&[8]), 12);
    assert_eq!(sheet(&[7]), 13);
    assert_eq!(sheet(&[0]), 13);
    assert_eq!(sheet(&[2]), 13);
    assert_eq!(sheet(&[1]), 11);
    assert_eq!(sheet(&[1, 9, 0]), 11);
    assert_eq!(sheet(&[1, 9, 0, 0]), 14);
    assert_eq!(sheet(LINK), 11 | 4 << 32);
    assert_eq!(fault(&[LINK.to_vec()]), (13, 4));
    assert_eq!(fault(&[item(1, 1), region(0, 1, 0)]), (13, 39));
    assert_eq!(fault(&[item(1, 1), parameter(0, 0, 1)]), (13, 39));
    assert_eq!(fault(&[region(0, 1, 0), vec![2]]), (11, 14));
    assert_eq!(fault(&[item(1, 1), vec![2]]), (13, 39));
}

#[test]
fn field_ranges() {
    assert_eq!(fault(&[region(0, 0, 7)]), (14, 4));
    assert_eq!(fault(&[region(0, 1, 8)]), (14, 4));
    assert_eq!(fault(&[region(0xFFFF_FFFF, 1, 7)]), (0, 0));
    assert_eq!(fault(&[region(0xFFFF_FFFF, 2, 7)]), (14, 4));
    assert_eq!(fault(&[region(0, 0xFFFF_FFFF, 7)]), (16, 4));
    let ground = region(0, 64, 7);
    assert_eq!(fault(&[ground.clone(), parameter(0, 0, 0)]), (14, 14));
    assert_eq!(fault(&[ground.clone(), parameter(0, 0, 56)]), (0, 0));
    assert_eq!(fault(&[ground, parameter(0, 0, 57)]), (14, 14));
    assert_eq!(fault(&[item(0, 0)]), (14, 4));
    assert_eq!(fault(&[item(0, 32)]), (0, 0));
    assert_eq!(fault(&[item(0, 33)]), (14, 4));
    let mut dirty = item(0, 31);
    dirty[34] = 1;
    assert_eq!(fault(&[dirty]), (14, 4));
}

#[test]
fn limits_come_before_order() {
    let regions: Vec<_> = (0..32).map(|start| region(start, 1, 7)).collect();
    let with_region = |record| [regions.clone(), vec![record]].concat();
    assert_eq!(fault(&regions), (0, 0));
    assert_eq!(fault(&with_region(region(0, 1, 7))), (16, 324));
    assert_eq!(fault(&with_region(region(0, 0, 7))), (14, 324));
    assert_eq!(fault(&[region(0, 65_537, 7)]), (16, 4));
    assert_eq!(fault(&[region(0, 65_536, 7), region(0, 1, 7)]), (16, 14));
    let mut records = vec![region(0, 1, 7)];
    records.extend((0..64).map(|number| parameter(number, 0, 1)));
    assert_eq!(fault(&records), (0, 0));
    records.push(parameter(0, 9, 1));
    assert_eq!(fault(&records), (16, 4 + 10 + 64 * 8));
    let mut records: Vec<_> = (0..32).map(|code| item(code, 1)).collect();
    assert_eq!(fault(&records), (0, 0));
    records.push(item(0, 1));
    assert_eq!(fault(&records), (16, 4 + 32 * 35));
}

#[test]
fn order_comes_before_span() {
    assert_eq!(fault(&[region(4, 4, 7), region(7, 1, 7)]), (15, 14));
    assert_eq!(fault(&[region(4, 4, 7), region(8, 1, 7)]), (0, 0));
    let top = region(0xFFFF_FFFF, 1, 7);
    assert_eq!(fault(&[top, region(0, 1, 7)]), (15, 14));
    let ground = region(0, 8, 7);
    let first = parameter(256, 0, 1);
    let pair = |record| [ground.clone(), first.clone(), record];
    assert_eq!(fault(&pair(parameter(256, 9, 1))), (15, 22));
    assert_eq!(fault(&pair(parameter(1, 9, 1))), (15, 22));
    assert_eq!(fault(&pair(parameter(257, 8, 1))), (17, 22));
    assert_eq!(fault(&[item(2, 1), item(2, 1)]), (15, 39));
}

#[test]
fn spans_cross_where_no_address_is_missing() {
    let regions = [region(0, 4, 7), region(4, 1, 0), region(5, 3, 7)];
    let with = |record| [regions.to_vec(), vec![record]].concat();
    assert_eq!(fault(&with(parameter(0, 0, 8))), (0, 0));
    assert_eq!(fault(&with(parameter(0, 0, 9))), (17, 34));
    let gap = [region(0, 4, 7), region(5, 3, 7), parameter(0, 3, 2)];
    assert_eq!(fault(&gap), (17, 24));
    assert_eq!(fault(&[parameter(0, 0, 1)]), (17, 4));
}

#[test]
fn nothing_wraps_at_the_last_address() {
    let ends = [region(0, 4, 7), region(0xFFFF_FFFC, 4, 7)];
    let with = |record| [ends.to_vec(), vec![record]].concat();
    assert_eq!(fault(&with(parameter(0, 0xFFFF_FFFC, 4))), (0, 0));
    assert_eq!(fault(&with(parameter(0, 0xFFFF_FFFC, 5))), (17, 24));
    assert_eq!(fault(&with(parameter(0, 0xFFFF_FFFF, 2))), (17, 24));
}

#[test]
fn a_tolerance_is_0_to_3() {
    let all = [region(0, 8, 7), parameter(1, 0, 8), item(9, 1)];
    let with = |record| [all.to_vec(), vec![record]].concat();
    for failures in 0..=255 {
        let told = if failures <= 3 { (0, 0) } else { (14, 57) };
        assert_eq!(fault(&with(tolerance(failures))), told);
        let told = if failures <= 3 { (0, 0) } else { (14, 4) };
        assert_eq!(fault(&[tolerance(failures)]), told);
    }
    assert_eq!(lengths(&sheet_of(&with(tolerance(3)))), 16 | 8 << 32);
}

/// It may stand behind any records before it, and before the end alone.
#[test]
fn a_tolerance_stands_behind_the_items_and_once() {
    let ground = region(0, 8, 7);
    for before in [
        vec![],
        vec![ground.clone()],
        vec![ground.clone(), parameter(1, 0, 8)],
        vec![ground.clone(), item(9, 1)],
        vec![item(9, 1)],
    ] {
        let with = [before.clone(), vec![tolerance(2)]].concat();
        assert_eq!(fault(&with), (0, 0));
        let place = sheet_of(&with).len() as u64 - 1;
        for behind in [
            LINK.to_vec(),
            region(8, 1, 7),
            parameter(2, 0, 8),
            item(10, 1),
            tolerance(2),
            tolerance(0),
        ] {
            assert_eq!(fault(&[with.clone(), vec![behind]].concat()), (13, place));
        }
    }
    assert_eq!(sheet(&[6]), 13);
    assert_eq!(sheet(&[6, 1, 1, 16, 0x30, 0, 0]), 13);
    assert_eq!(sheet(&[1, 16, 0x30, 0, 0, 6, 1]), 13 | 5 << 32);
}

/// Place, cut and range in this order; kinds from 8 on stay unknown.
#[test]
fn which_fault_of_a_tolerance_is_told() {
    assert_eq!(sheet(&[1, 16, 0x30, 0, 6]), 11 | 4 << 32);
    assert_eq!(sheet(&[1, 16, 0x30, 0, 6, 1]), 11 | 6 << 32);
    assert_eq!(sheet(&[1, 16, 0x30, 0, 6, 4]), 14 | 4 << 32);
    assert_eq!(sheet(&[1, 16, 0x30, 0, 6, 1, 6]), 13 | 6 << 32);
    assert_eq!(sheet(&[1, 16, 0x30, 0, 6, 1, 6, 4]), 13 | 6 << 32);
    assert_eq!(sheet(&[1, 16, 0x30, 0, 6, 4, 6]), 14 | 4 << 32);
    assert_eq!(sheet(&[1, 16, 0x30, 0, 6, 1, 2]), 13 | 6 << 32);
    for kind in 8..=255 {
        assert_eq!(sheet(&[1, 16, 0x30, 0, kind, 1, 0]), 12 | 4 << 32);
        assert_eq!(sheet(&[1, 16, 0x30, 0, 6, 1, kind, 1]), 12 | 6 << 32);
    }
}
