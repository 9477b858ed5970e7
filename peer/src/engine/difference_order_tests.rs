//! Request 2: the order of a list's entries, by kind and then by key as a number.

use super::difference;

const REGION: [u8; 10] = [2, 0, 0, 0, 0, 255, 0, 0, 0, 7];

fn sheet(link: u8, records: &[Vec<u8>]) -> Vec<u8> {
    [&[link, 16, 3, 4], &records.concat()[..], &[0]].concat()
}

fn region(start: u32) -> Vec<u8> {
    [&[2], &start.to_le_bytes()[..], &[1, 0, 0, 0, 5]].concat()
}

fn parameter(number: u16) -> Vec<u8> {
    [&[3], &number.to_le_bytes()[..], &[0, 0, 0, 0, 1]].concat()
}

fn item(code: u8) -> Vec<u8> {
    let mut record = vec![4, code, 1, 9];
    record.resize(35, 0);
    record
}

fn list(first: &[u8], second: &[u8]) -> Vec<u8> {
    let mut lent = vec![0; 4096];
    let answer = difference(first, second, &mut lent);
    assert_eq!(answer as u32, 0);
    lent.truncate((answer >> 32) as usize);
    lent
}

fn new(record: &[u8]) -> Vec<u8> {
    [&[0x50 | record[0]], &record[1..]].concat()
}

/// The entries of every record gone and every record new, in turn by key.
fn in_turn(records: &[Vec<u8>], key: usize) -> Vec<u8> {
    let mut list = Vec::new();
    for (index, record) in records.iter().enumerate() {
        if index % 2 == 0 {
            list.push(0x40 | record[0]);
            list.extend(&record[1..1 + key]);
        } else {
            list.extend(new(record));
        }
    }
    list
}

/// Every second record in the first sheet, the others in the second.
fn split(before: &[Vec<u8>], records: &[Vec<u8>]) -> [Vec<u8>; 2] {
    [0, 1].map(|side| {
        let own = records.iter().skip(side).step_by(2);
        let all: Vec<Vec<u8>> = before.iter().chain(own).cloned().collect();
        sheet(1, &all)
    })
}

/// Keys whose octets would rise otherwise than their numbers do.
#[test]
fn keys_are_ordered_as_numbers() {
    let regions = [
        1,
        0xFF,
        0x100,
        0x01FF,
        0xFFFF,
        0x1_0000,
        0x7FFF_FFFF,
        0x8000_0000,
        0xFFFF_FFFE,
    ]
    .map(region);
    let [first, second] = split(&[], &regions);
    assert_eq!(list(&first, &second), in_turn(&regions, 4));
    let parameters = [0, 1, 0xFF, 0x100, 0x1FF, 0x7FFF, 0x8000, 0xFF00, 0xFFFF].map(parameter);
    let [first, second] = split(&[REGION.to_vec()], &parameters);
    assert_eq!(list(&first, &second), in_turn(&parameters, 2));
    let items = [0, 1, 0x7F, 0x80, 0xFE, 0xFF].map(item);
    let [first, second] = split(&[], &items);
    assert_eq!(list(&first, &second), in_turn(&items, 1));
}

#[test]
fn kinds_come_in_order_and_unchanged_records_are_left_out() {
    let (shared, lost, came) = (region(9), region(0), region(12));
    let at_nine = vec![3, 5, 0, 9, 0, 0, 0, 1];
    let first = sheet(5, &[lost, shared.clone(), at_nine, item(1), vec![6, 1]]);
    let second = sheet(
        1,
        &[
            shared,
            came.clone(),
            item(1),
            item(2),
            vec![6, 0],
            vec![7, 2],
        ],
    );
    let expected = [
        vec![0x45, 0x51, 16, 3, 4],
        vec![0x42, 0, 0, 0, 0],
        new(&came),
        vec![0x43, 5, 0],
        new(&item(2)),
        vec![0x66, 1, 0],
        vec![0x57, 2],
    ];
    assert_eq!(list(&first, &second), expected.concat());
}

#[test]
fn a_changed_record_stands_between_its_neighbours() {
    let (mut changed, shared) = (item(7), item(9));
    changed[3] = 8;
    let first = sheet(1, &[item(6), item(7), shared.clone()]);
    let second = sheet(1, &[changed.clone(), item(8), shared]);
    let entry = [&[0x64, 4], &changed[1..]].concat();
    let expected = [vec![0x44, 6], entry, new(&item(8))];
    assert_eq!(list(&first, &second), expected.concat());
}
