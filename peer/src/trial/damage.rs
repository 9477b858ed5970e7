//! Damage to good sheets: octets, records and lengths.

use super::plan::{item, parameter, region, release_record, tolerance_record, Plan};
use super::random::Random;
use crate::engine::region::Region;

/// A sheet with one to three kinds of damage, at times still good.
pub fn damaged_sheet(random: &mut Random, plan: &Plan) -> Vec<u8> {
    let mut plan = plan.clone();
    if random.chance(15) {
        fill_up(random, &mut plan);
    }
    let mut records = plan.records();
    for _ in 0..random.below(3) {
        damage_records(random, &mut records);
    }
    let mut octets = records.concat();
    let changes = random.pick(&[0, 1, 1, 1, 2, 3]);
    for _ in 0..changes {
        change_octet(random, &mut octets);
    }
    if random.chance(10) {
        octets.truncate(random.index(octets.len() + 1));
    }
    if random.chance(5) {
        let longer = octets.len() + random.pick(&[1, 2, 40]);
        let length = random.pick(&[longer, 2048, 2049, 4000]);
        octets.resize(length.max(octets.len()), 0);
    }
    octets
}

/// Adds good records of one kind up to its limit or one past it.
fn fill_up(random: &mut Random, plan: &mut Plan) {
    let past = random.index(2);
    let end = plan.regions.last().map_or(0, Region::end);
    match random.below(3) {
        0 => {
            let missing = (32 + past).saturating_sub(plan.regions.len()) as u64;
            plan.regions
                .extend((0..missing).map(|at| region(end + at, 1, 7)));
        }
        1 => {
            let last = plan.parameters.last().copied();
            let mut next = last.unwrap_or_else(|| parameter(0, end.saturating_sub(1) as u32, 1));
            while plan.parameters.len() < 64 + past {
                next.number = next.number.wrapping_add(1);
                plan.parameters.push(next);
            }
        }
        _ => {
            let mut code = plan.items.last().map_or(0, |last| last.code);
            while plan.items.len() < 32 + past {
                code = code.wrapping_add(1);
                plan.items.push(item(code, &[code]));
            }
        }
    }
}

/// Moves, doubles, drops or shortens a record, or puts a new one in.
fn damage_records(random: &mut Random, records: &mut Vec<Vec<u8>>) {
    if records.is_empty() {
        return;
    }
    let at = random.index(records.len());
    let other = random.index(records.len());
    match random.below(10) {
        0 => records.swap(at, other),
        1 => {
            let copy = records[at].clone();
            records.insert(other, copy);
        }
        2 => drop(records.remove(at)),
        3 => {
            records[at].pop();
        }
        4 => {
            let kind = random.pick(&[0, 1, 5, 6, 7, 8, 0xFF]);
            records.insert(at, vec![kind]);
        }
        5 => link_record(random, records),
        6 => {
            let length = random.pick(&[8, 16, 16, 32, 15, 17]);
            records[0] = vec![random.pick(&[1, 5]), length, 3, 4];
        }
        7 => {
            let failures = random.pick(&[0, 1, 2, 3, 3, 4, 0xFF]);
            records.insert(at, tolerance_record(failures));
        }
        8 => release(random, records),
        _ => {
            let body = random.octets(9);
            records.insert(at, [vec![2], body].concat());
        }
    }
}

/// A release record beside the sheet's own or in its stead, mostly at the end, at times the last octets of all.
fn release(random: &mut Random, records: &mut Vec<Vec<u8>>) {
    if random.chance(60) {
        records.retain(|record| record.first() != Some(&7));
    }
    let last = records.len().max(1);
    let anywhere = random.index(last);
    let at = random.pick(&[0, last - 1, last - 1, last - 1, last, anywhere]);
    let release = random.pick(&[0, 1, 1, 2, 2, 3, 0xFF]);
    let at = at.min(records.len());
    records.insert(at, release_record(release));
    if random.chance(40) {
        records.truncate(at + 1);
        records[at].truncate(random.pick(&[1, 2]));
    }
}

/// A link record of either type, mostly beside the sheet's own.
fn link_record(random: &mut Random, records: &mut Vec<Vec<u8>>) {
    let at = match random.below(4) {
        0 => random.index(records.len()),
        other => (other as usize - 1) % 2,
    };
    let mut record = vec![random.pick(&[1, 5, 5]), 16, 3, 4];
    record.truncate(random.pick(&[1, 4, 4, 4]));
    records.insert(at.min(records.len()), record);
}

fn change_octet(random: &mut Random, octets: &mut [u8]) {
    if octets.is_empty() {
        return;
    }
    let at = random.index(octets.len());
    octets[at] = match random.below(5) {
        0 => random.octet(),
        1 => octets[at].wrapping_add(1),
        2 => octets[at].wrapping_sub(1),
        3 => octets[at] ^ 1 << random.below(8),
        _ => random.pick(&[0, 1, 2, 3, 4, 5, 8, 0x20, 0x21, 0x38, 0x39, 0xFF]),
    };
}
