//! Request 2: lists in buffers of every length, up to the longest list that two
//! sheets can have, and every octet of a sheet changed.

use super::tolerances::packed;
use crate::trial::build::old_octets;
use crate::trial::call::Call;
use crate::trial::pairs::{list_in, needed};
use crate::trial::plan::{item, parameter, region, Plan};
use crate::trial::probe::Outcome;
use crate::trial::rig::Rig;
use crate::trial::samples::{
    both_ends, changed_all, largest, moved_all, released, sheet_p, tolerant, Spans,
};

/// Of two sheets with as many records as they can have: all of them changed, and all of them gone and new.
const ALL_CHANGED: usize = 2091;
const ALL_MOVED: usize = 2379;

pub fn run(rig: &mut Rig) -> Outcome {
    rig.origin = "directed: lists cut at every length".to_string();
    every_length(rig)?;
    rig.origin = "directed: octets of two sheets changed and swapped".to_string();
    every_octet(rig, &released(32, Some(2), Some(1)))?;
    rig.origin = "directed: the largest pairs of sheets".to_string();
    largest_pairs(rig)?;
    rig.origin = "directed: one record of the largest sheet".to_string();
    one_record(rig)
}

/// Sheets of both types, with and without each kind, that share records.
fn plans() -> Vec<Plan> {
    let mut moved = both_ends(16);
    moved.regions[1].rights = 7;
    moved.parameters.remove(1);
    moved.parameters[0].number = 5;
    moved.items.push(item(0x81, &[1]));
    vec![
        Plan::bare(16),
        Plan::bare(48).in_short(),
        sheet_p(),
        sheet_p().in_release_2(),
        both_ends(16),
        both_ends(8).in_short(),
        tolerant(64, Some(3)),
        released(16, Some(0), Some(1)),
        released(16, None, Some(2)).in_short(),
        moved,
    ]
}

fn cut(rig: &mut Rig, first: &[u8], second: &[u8]) -> Outcome {
    rig.inputs.sheet = first.to_vec();
    rig.inputs.second = second.to_vec();
    let length = needed(rig)?;
    for room in 0..=length + 1 {
        let answer = if room < length {
            packed(28, length)
        } else {
            packed(0, length)
        };
        rig.inputs.list = old_octets(room);
        rig.expect(Call::Difference, answer)?;
    }
    Ok(())
}

fn every_length(rig: &mut Rig) -> Outcome {
    for first in plans() {
        for second in plans() {
            cut(rig, &first.octets(), &second.octets())?;
        }
    }
    Ok(())
}

/// Each octet with every value, and swapped with the next one.
fn every_octet(rig: &mut Rig, plan: &Plan) -> Outcome {
    let sheet = plan.octets();
    for at in 0..sheet.len() {
        for octet in 0..=255 {
            let mut changed = sheet.clone();
            changed[at] = octet;
            beside_changed(rig, &sheet, changed)?;
        }
        let mut swapped = sheet.clone();
        swapped.swap(at, (at + 1) % sheet.len());
        beside_changed(rig, &sheet, swapped)?;
    }
    Ok(())
}

/// Whatever the change makes of the sheet, as the second and as the first.
fn beside_changed(rig: &mut Rig, sheet: &[u8], changed: Vec<u8>) -> Outcome {
    rig.inputs.sheet = sheet.to_vec();
    rig.inputs.second = changed;
    list_in(rig, old_octets(60))?;
    std::mem::swap(&mut rig.inputs.sheet, &mut rig.inputs.second);
    list_in(rig, old_octets(60))?;
    Ok(())
}

fn expect_length(rig: &mut Rig, pair: [&Plan; 2], length: usize) -> Outcome {
    let [first, second] = pair.map(Plan::octets);
    rig.inputs.sheet = first.clone();
    rig.inputs.second = second.clone();
    rig.inputs.list = old_octets(4096);
    rig.expect(Call::Difference, packed(0, length))?;
    cut(rig, &first, &second)
}

fn largest_pairs(rig: &mut Rig) -> Outcome {
    let full = largest(64, Spans::Last).in_release_2();
    expect_length(rig, [&full, &full], 0)?;
    expect_length(rig, [&full, &changed_all(&full)], ALL_CHANGED)?;
    expect_length(rig, [&full, &moved_all(&full)], ALL_MOVED)?;
    expect_length(rig, [&moved_all(&full), &full], ALL_MOVED)
}

/// The first, the last and one in the middle of each kind, gone and new, at its limit and one past it.
fn one_record(rig: &mut Rig) -> Outcome {
    let full = largest(64, Spans::First).in_release_2();
    for at in [0, 15, 31] {
        let mut without = full.clone();
        without.items.remove(at);
        both_ways(rig, &full, &without)?;
        without.parameters.remove(2 * at);
        both_ways(rig, &full, &without)?;
        let mut apart = full.clone();
        apart.parameters.clear();
        let mut fewer = apart.clone();
        fewer.regions.remove(at);
        both_ways(rig, &apart, &fewer)?;
    }
    let mut more = full.clone();
    more.items.push(item(0xFF, &[1]));
    both_ways(rig, &full, &more)?;
    more.parameters.push(parameter(0xFFFF, 0x2_0000, 1));
    both_ways(rig, &full, &more)?;
    more.regions.push(region(0xFFFF_FFFF, 1, 7));
    both_ways(rig, &full, &more)
}

fn both_ways(rig: &mut Rig, one: &Plan, other: &Plan) -> Outcome {
    for [first, second] in [[one, other], [other, one]] {
        super::pair_records::around(rig, &first.octets(), &second.octets())?;
    }
    Ok(())
}
