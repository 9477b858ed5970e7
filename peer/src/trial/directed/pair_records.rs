//! Request 2: records of two sheets side by side, in each way in which they can
//! be gone, new, changed or the same, with keys at their bounds.

use crate::trial::build::old_octets;
use crate::trial::pairs::{list_in, needed};
use crate::trial::plan::{item, item_record, parameter, parameter_record, region, region_record};
use crate::trial::plan::{release_record, tolerance_record};
use crate::trial::probe::Outcome;
use crate::trial::rig::Rig;

const LINK: [u8; 4] = [1, 16, 0x30, 5];
/// More than any list of these trials.
const ROOM: usize = 400;
/// Of a record: not there, there, or there with other fields.
const STATES: usize = 3;

pub fn run(rig: &mut Rig) -> Outcome {
    rig.origin = "directed: link records of two sheets".to_string();
    links(rig)?;
    rig.origin = "directed: records of one kind in two sheets".to_string();
    for records in [regions(), parameters(), items()] {
        of_one_kind(rig, &records)?;
    }
    rig.origin = "directed: keys of two sheets at their bounds".to_string();
    keys(rig)
}

/// A record as it is in one sheet, and as it may be in the other.
type Variants = [Vec<u8>; 2];

fn lend(rig: &mut Rig, first: &[u8], second: &[u8]) {
    rig.inputs.sheet = first.to_vec();
    rig.inputs.second = second.to_vec();
}

/// Without a buffer, one octet short, fitting, and with room.
pub fn around(rig: &mut Rig, first: &[u8], second: &[u8]) -> Outcome {
    lend(rig, first, second);
    let length = needed(rig)?;
    for room in [length.saturating_sub(1), length, length + 3] {
        list_in(rig, old_octets(room))?;
    }
    Ok(())
}

fn with_room(rig: &mut Rig, first: &[u8], second: &[u8]) -> Outcome {
    lend(rig, first, second);
    list_in(rig, old_octets(ROOM))?;
    Ok(())
}

/// Both types with every field the same or not, of which one L is none of the short type's.
fn links(rig: &mut Rig) -> Outcome {
    let bit = |number: u8, at: u8| number >> at & 1;
    let links: Vec<[u8; 4]> = (0..16)
        .map(|number| {
            let (kind, length) = (1 + 4 * bit(number, 0), 16 + 32 * bit(number, 1));
            [kind, length, 3 + bit(number, 2), 3 + bit(number, 3)]
        })
        .collect();
    for first in &links {
        for second in &links {
            beside_link(rig, first, second)?;
        }
    }
    Ok(())
}

/// Alone, and with a record behind the second or behind both.
fn beside_link(rig: &mut Rig, first: &[u8], second: &[u8]) -> Outcome {
    for [behind_first, behind_second] in [
        [&[0][..], &[0]],
        [&[0], &[6, 1, 0]],
        [&[6, 1, 0], &[6, 1, 0]],
    ] {
        around(
            rig,
            &[first, behind_first].concat(),
            &[second, behind_second].concat(),
        )?;
    }
    Ok(())
}

fn regions() -> Vec<Variants> {
    let starts = [0x100, 0x1FF, 0x1_0000, 0xFFFF_FFFE];
    starts
        .map(|start| {
            [(1, 7), (2, 7)].map(|(length, rights)| region_record(&region(start, length, rights)))
        })
        .to_vec()
}

fn parameters() -> Vec<Variants> {
    let numbers = [0, 0xFF, 0x100, 0xFFFF];
    numbers
        .map(|number| [2, 3].map(|address| parameter_record(&parameter(number, address, 2))))
        .to_vec()
}

fn items() -> Vec<Variants> {
    let codes = [0, 0x7F, 0x80, 0xFF];
    codes
        .map(|code| [&[7][..], &[7, 0]].map(|octets| item_record(&item(code, octets))))
        .to_vec()
}

/// A sheet with each of the records in the state that a digit of the number tells.
fn chosen(records: &[Variants], mut number: usize) -> Vec<u8> {
    let mut sheet = LINK.to_vec();
    // Parameters need a region that has their spans.
    sheet.extend(region_record(&region(0, 9, 7)));
    for variants in records {
        match number % STATES {
            0 => (),
            state => sheet.extend(&variants[state - 1]),
        }
        number /= STATES;
    }
    sheet.push(0);
    sheet
}

/// All sheets that have some of the records, each beside each.
fn of_one_kind(rig: &mut Rig, records: &[Variants]) -> Outcome {
    let sheets: Vec<Vec<u8>> = (0..STATES.pow(records.len() as u32))
        .map(|number| chosen(records, number))
        .collect();
    for first in &sheets {
        for second in &sheets {
            with_room(rig, first, second)?;
        }
    }
    Ok(())
}

/// One record of each kind behind the link record, in all states.
pub fn run_all_kinds(rig: &mut Rig) -> Outcome {
    rig.origin = "directed: records of all kinds in two sheets".to_string();
    let records = [
        [3, 5].map(|rights| region_record(&region(0x20, rights.into(), rights))),
        [1, 2].map(|size| parameter_record(&parameter(9, size.into(), size))),
        [&[1][..], &[2, 2]].map(|octets| item_record(&item(6, octets))),
        [0, 3].map(tolerance_record),
        [1, 2].map(release_record),
    ];
    of_one_kind(rig, &records)
}

/// One record each, whose keys are bounds of their octets.
fn keys(rig: &mut Rig) -> Outcome {
    let starts = [
        0,
        1,
        0xFF,
        0x100,
        0xFFFF,
        0x1_0000,
        0xFF_FFFF,
        0x100_0000,
        0x7FFF_FFFF,
        0x8000_0000,
        0xFFFF_FFFF,
    ];
    each_beside_each(
        rig,
        &starts.map(|start| region_record(&region(start, 1, 7))),
    )?;
    let numbers = [
        0, 1, 0x7F, 0x80, 0xFF, 0x100, 0x101, 0x1FF, 0x7FFF, 0x8000, 0xFF00, 0xFFFF,
    ];
    each_beside_each(
        rig,
        &numbers.map(|number| {
            let mapped = region_record(&region(0, 1, 7));
            [mapped, parameter_record(&parameter(number, 0, 1))].concat()
        }),
    )?;
    let codes = [0, 1, 2, 0x7E, 0x7F, 0x80, 0x81, 0xFE, 0xFF];
    each_beside_each(rig, &codes.map(|code| item_record(&item(code, &[code]))))
}

fn each_beside_each(rig: &mut Rig, records: &[Vec<u8>]) -> Outcome {
    for first in records {
        for second in records {
            let sheet = |record: &[u8]| [&LINK, record, &[0]].concat();
            around(rig, &sheet(first), &sheet(second))?;
        }
    }
    Ok(())
}
