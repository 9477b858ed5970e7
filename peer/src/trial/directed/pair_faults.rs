//! Request 2: faults of the first sheet, then of the second, then a list without
//! room; and that no refused call writes.

use super::tolerances::packed;
use crate::trial::build::old_octets;
use crate::trial::call::Call;
use crate::trial::plan::{item, item_record, parameter, parameter_record, region, region_record};
use crate::trial::plan::{release_record, tolerance_record, Plan};
use crate::trial::probe::Outcome;
use crate::trial::rig::Rig;
use crate::trial::samples::{both_ends, largest, released, sheet_p, Spans};

const OF_SECOND: u64 = 10;
const ROOMS: [usize; 4] = [0, 1, 50, 3000];

pub fn run(rig: &mut Rig) -> Outcome {
    rig.origin = "directed: faults of two sheets".to_string();
    for good in [
        sheet_p(),
        released(16, Some(1), Some(2)),
        Plan::bare(16).in_short(),
    ] {
        faults(rig, &good.octets())?;
    }
    rig.origin = "directed: two sheets cut at every length".to_string();
    for plan in [released(16, Some(1), Some(2)), both_ends(16).in_short()] {
        cuts(rig, &plan.octets())?;
    }
    rig.origin = "directed: lengths of two sheets".to_string();
    lengths(rig)
}

/// A sheet with a fault, its number and its place.
type Faulty = (Vec<u8>, u64, usize);

/// A fault of each number behind the same records, and one at another place.
fn faulty() -> Vec<Faulty> {
    let before = [vec![1, 16, 3, 4], region_record(&region(0x10, 4, 7))].concat();
    let records: [(Vec<u8>, u64); 9] = [
        (vec![], 11),
        (item_record(&item(1, &[1]))[..34].to_vec(), 11),
        (vec![8], 12),
        (vec![5, 16, 3, 4], 13),
        (release_record(3), 14),
        (tolerance_record(4), 14),
        (region_record(&region(0x13, 4, 7)), 15),
        (region_record(&region(0x20, 0x1_0000, 7)), 16),
        (parameter_record(&parameter(1, 0x13, 2)), 17),
    ];
    let mut sheets: Vec<Faulty> = records
        .into_iter()
        .map(|(record, number)| ([before.clone(), record].concat(), number, before.len()))
        .collect();
    sheets.push((vec![], 11, 0));
    sheets.push((vec![0; 2049], 11, 0));
    sheets.push((vec![1, 16, 3, 4, 0, 0], 13, 5));
    sheets
}

fn expect(rig: &mut Rig, first: &[u8], second: &[u8], answer: u64) -> Outcome {
    rig.inputs.sheet = first.to_vec();
    rig.inputs.second = second.to_vec();
    for room in ROOMS {
        rig.inputs.list = old_octets(room);
        rig.expect(Call::Difference, answer)?;
    }
    Ok(())
}

fn faults(rig: &mut Rig, good: &[u8]) -> Outcome {
    for (sheet, number, place) in faulty() {
        expect(rig, &sheet, good, packed(number, place))?;
        expect(rig, good, &sheet, packed(number + OF_SECOND, place))?;
        for (other, _, _) in faulty() {
            expect(rig, &sheet, &other, packed(number, place))?;
        }
    }
    Ok(())
}

/// Each sheet cut at every length, beside the whole one and beside one cut elsewhere.
fn cuts(rig: &mut Rig, whole: &[u8]) -> Outcome {
    for length in 0..=whole.len() {
        for other in [whole, &whole[..length], &whole[..whole.len() - 1], &[]] {
            for [first, second] in [[&whole[..length], other], [other, &whole[..length]]] {
                rig.inputs.sheet = first.to_vec();
                rig.inputs.second = second.to_vec();
                rig.inputs.list = old_octets(40);
                rig.call(Call::Difference)?;
            }
        }
    }
    Ok(())
}

/// At the limit of a sheet's length and one past it, of either sheet and of both.
fn lengths(rig: &mut Rig) -> Outcome {
    let good = largest(48, Spans::Last).octets();
    let longer = |length: usize| {
        let mut sheet = good.clone();
        sheet.resize(length, 0);
        sheet
    };
    let (at, past) = (longer(2048), longer(2049));
    expect(rig, &at, &good, packed(13, good.len()))?;
    expect(rig, &past, &good, packed(11, 0))?;
    expect(rig, &good, &at, packed(13 + OF_SECOND, good.len()))?;
    expect(rig, &good, &past, packed(11 + OF_SECOND, 0))?;
    expect(rig, &past, &at, packed(11, 0))?;
    expect(rig, &at, &past, packed(13, good.len()))
}
