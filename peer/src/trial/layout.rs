//! Random good sheets, with the layouts in which spans are hard to get right.

use super::plan::{item, parameter, region, Item, Plan, LENGTHS};
use super::random::Random;
use crate::engine::region::Region;
use crate::engine::sheet::Parameter;

const ADDRESSES: u64 = 1 << 32;
const MEMORY_LIMIT: u64 = 65_536;

/// A good sheet of either type and any L with any number of records.
pub fn random_plan(random: &mut Random) -> Plan {
    let mut plan = Plan {
        version: random.octet(),
        profile: random.octet(),
        regions: regions(random),
        items: items(random),
        tolerance: tolerance(random),
        release: release(random),
        ..Plan::bare(random.pick(&LENGTHS))
    };
    if random.chance(30) {
        plan = plan.in_short();
    }
    plan.parameters = parameters(random, &plan);
    plan
}

/// Half of the sheets allow a failure or more; the others have no record, or one of 0.
fn tolerance(random: &mut Random) -> Option<u8> {
    random.pick(&[None, None, Some(0), Some(1), Some(2), Some(3)])
}

/// Half of the sheets are of release 2; the others have no record, or one of 1.
fn release(random: &mut Random) -> Option<u8> {
    random.pick(&[None, None, Some(1), Some(2), Some(2), Some(2)])
}

fn regions(random: &mut Random) -> Vec<Region> {
    let count = random.pick(&[0, 1, 2, 3, 3, 4, 6, 9, 17, 31, 32]);
    let rights_in_common = random.pick(&[0, 0, 0, 1, 2, 4, 7]);
    let mut regions = Vec::new();
    let mut at = 0;
    for _ in 0..count {
        at += gap(random);
        let length = region_length(random);
        let rights = random.octet() & 7 | rights_in_common;
        regions.push(region(at, length, rights));
        at += length;
    }
    if count > 0 && random.chance(3) {
        stretch(random, &mut regions);
    }
    move_to_base(random, &mut regions);
    regions
}

fn gap(random: &mut Random) -> u64 {
    match random.below(100) {
        0..=64 => 0,
        65..=79 => 1,
        80..=94 => 1 + random.below(9),
        _ => random.below(1 << 20),
    }
}

fn region_length(random: &mut Random) -> u64 {
    match random.below(100) {
        0..=24 => 1,
        25..=59 => 1 + random.below(5),
        60..=89 => 1 + random.below(20),
        _ => 1 + random.below(80),
    }
}

/// Makes one region so long that the memory comes near or to its limit.
fn stretch(random: &mut Random, regions: &mut [Region]) {
    let memory: u64 = regions.iter().map(|region| region.length).sum();
    let rest = MEMORY_LIMIT - memory;
    let more = random.pick(&[rest, rest, rest - 1, rest / 2]);
    let chosen = random.index(regions.len());
    regions[chosen].length += more;
    for region in &mut regions[chosen + 1..] {
        region.start += more;
    }
}

/// Moves the layout to address 0, to the last address, or anywhere.
fn move_to_base(random: &mut Random, regions: &mut [Region]) {
    let end = regions.last().map_or(0, Region::end);
    let room = ADDRESSES - end;
    let base = match random.below(5) {
        0 => 0,
        1 => room,
        2 => room - 1,
        3 => 0x1000,
        _ => random.below(room),
    };
    for region in regions {
        region.start += base;
    }
}

fn parameters(random: &mut Random, plan: &Plan) -> Vec<Parameter> {
    let runs = plan.runs();
    if runs.is_empty() {
        return Vec::new();
    }
    let count = random.pick(&[0, 1, 2, 4, 9, 33, 64]);
    let mut number = random.pick(&[0, 1, 250, 65_000]) + random.below(9);
    let mut parameters = Vec::new();
    while parameters.len() < count && number <= 0xFFFF {
        let (address, size) = parameter_span(random, plan, &runs);
        parameters.push(parameter(number as u16, address, size));
        number += if random.chance(70) {
            1
        } else {
            1 + random.below(600)
        };
    }
    parameters
}

/// A mapped span, mostly one that a PDU of this L can carry.
fn parameter_span(random: &mut Random, plan: &Plan, runs: &[(u64, u64)]) -> (u32, u8) {
    let (start, length) = random.pick(runs);
    let carried = u64::from(plan.pdu_length).saturating_sub(8).max(1);
    let limit = length.min(56);
    let likely = if random.chance(85) {
        limit.min(carried)
    } else {
        limit
    };
    let size = if random.chance(30) {
        likely
    } else {
        1 + random.below(likely)
    };
    let room = length - size;
    let offset = match random.below(4) {
        0 => 0,
        1 => room,
        _ => random.below(room + 1),
    };
    ((start + offset) as u32, size as u8)
}

fn items(random: &mut Random) -> Vec<Item> {
    let count = random.pick(&[0, 1, 2, 5, 12, 32]);
    let mut code = random.pick(&[0, 1, 0x80, 0xF8]) + random.below(5);
    let mut items = Vec::new();
    while items.len() < count && code <= 0xFF {
        let length = random.pick(&[1, 2, 7, 8, 9, 24, 31, 32]);
        items.push(item(code as u8, &random.octets(length)));
        code += if random.chance(80) {
            1
        } else {
            1 + random.below(40)
        };
    }
    items
}

#[cfg(test)]
mod tests {
    use super::*;
    use crate::engine;

    #[test]
    fn random_plans_are_good_sheets() {
        for seed in 0..3000 {
            let plan = random_plan(&mut Random::new(seed));
            let octets = plan.octets();
            assert_eq!(engine::sheet(&octets), 0, "seed {seed}");
            assert_eq!(Plan::read(&octets), Some(plan), "seed {seed}");
        }
    }

    #[test]
    fn random_plans_of_both_types_have_every_tolerance_and_release_and_none() {
        let mut seen = std::collections::BTreeSet::new();
        for seed in 0..600 {
            let plan = random_plan(&mut Random::new(seed));
            seen.insert((plan.wire.link_kind, plan.tolerance, plan.release));
        }
        let all = [None, Some(0), Some(1), Some(2), Some(3)];
        for kind in [1, 5] {
            for tolerance in all {
                for release in [None, Some(1), Some(2)] {
                    assert!(seen.contains(&(kind, tolerance, release)));
                }
            }
        }
    }
}
