//! Request 2: a list applied to the first sheet gives the second, and a list that is wrong gives nothing.

use super::apply::applied;
use super::difference;

fn item(code: u8, octet: u8) -> Vec<u8> {
    let mut record = vec![4, code, 1, octet];
    record.resize(35, 0);
    record
}

/// Sheets of few kinds and of all, of both types, that share some records with one another.
fn sheets() -> Vec<Vec<u8>> {
    let region = [2, 0, 1, 0, 0, 9, 0, 0, 0, 7];
    let wider = [2, 0, 1, 0, 0, 9, 1, 0, 0, 7];
    let second = [2, 0, 4, 0, 0, 1, 0, 0, 0, 0];
    let parameter = [3, 7, 0, 1, 1, 0, 0, 2];
    let [seven, eight] = [item(7, 1), item(8, 1)];
    let mut sheets = Vec::new();
    for link in [[1, 16, 3, 4], [1, 64, 3, 5], [5, 16, 3, 4]] {
        for records in [
            vec![],
            vec![&region[..], &parameter],
            vec![&wider, &second, &parameter, &seven],
            vec![&second, &seven, &eight, &[6, 2], &[7, 1]],
            vec![&region, &eight, &[6, 0]],
            vec![&item(7, 2)[..], &[7, 2]],
        ] {
            sheets.push([&link[..], &records.concat(), &[0]].concat());
        }
    }
    sheets
}

fn list(first: &[u8], second: &[u8]) -> Vec<u8> {
    let mut lent = vec![0; 4096];
    let answer = difference(first, second, &mut lent);
    assert_eq!(answer as u32, 0);
    lent.truncate((answer >> 32) as usize);
    lent
}

#[test]
fn the_list_of_any_two_gives_the_second() {
    for first in sheets() {
        for second in sheets() {
            let list = list(&first, &second);
            assert_eq!(list.is_empty(), first == second);
            assert_eq!(applied(&first, &list), Some(second));
        }
    }
}

/// No list with another octet, or cut, gives the second sheet.
#[test]
fn one_wrong_octet_is_seen() {
    let all = sheets();
    for (first, second) in [(&all[2], &all[9]), (&all[4], &all[15]), (&all[10], &all[8])] {
        let list = list(first, second);
        for at in 0..list.len() {
            assert_ne!(applied(first, &list[..at]), Some(second.clone()));
            for flip in 1..=255 {
                let mut wrong = list.clone();
                wrong[at] ^= flip;
                assert_ne!(applied(first, &wrong), Some(second.clone()));
            }
        }
    }
}

#[test]
fn entries_that_do_not_fit_are_refused() {
    let first = [&[1, 16, 3, 4][..], &item(7, 1), &[6, 2, 0]].concat();
    let changed = |bits, octet| [&[0x64, bits], &item(7, octet)[1..]].concat();
    assert!(applied(&first, &changed(4, 2)).is_some());
    let wrong: [&[u8]; 12] = [
        &changed(4, 1),
        &changed(0, 1),
        &changed(6, 2),
        &changed(1, 2),
        &[0x44, 8],
        &[0x42, 0, 0, 0, 0],
        &[0x45],
        &[0x65, 4, 16, 3, 5],
        &[0x56, 2],
        &[0x40],
        &[0x48],
        &[0x76, 2],
    ];
    for list in wrong {
        assert_eq!(applied(&first, list), None, "{list:?}");
    }
    assert_eq!(applied(&first[..4], &[]), None);
}

#[test]
fn entries_out_of_order_or_told_twice_are_refused() {
    let first = [&[1, 16, 3, 4][..], &item(7, 1), &item(8, 1), &[6, 2, 0]].concat();
    let (seven, eight, tolerance): (&[u8], &[u8], &[u8]) = (&[0x44, 7], &[0x44, 8], &[0x46]);
    assert!(applied(&first, &[seven, eight, tolerance].concat()).is_some());
    for list in [[eight, seven], [tolerance, seven], [seven, seven]] {
        assert_eq!(applied(&first, &list.concat()), None);
    }
    let again = [&[0x54], &item(7, 2)[1..]].concat();
    assert_eq!(applied(&first, &[seven, &again].concat()), None);
    assert_eq!(applied(&first, &[0x41, 0x51, 16, 3, 5]), None);
    assert!(applied(&first, &[0x41, 0x55, 16, 3, 4]).is_some());
    assert_eq!(applied(&first, &[0x55, 16, 3, 4, 0x41]), None);
}
