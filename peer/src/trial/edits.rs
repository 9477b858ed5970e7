//! Small changes of a plan that leave it a good sheet, for pairs of sheets (request 2).

use super::plan::{item, Plan, LENGTHS};
use super::random::Random;
use crate::engine::region::find_span;

/// One change: a field of a record, a key, a record that goes, or a record of its own kind that comes or goes.
pub fn edit(random: &mut Random, plan: &mut Plan) {
    match random.below(16) {
        0..=2 => edit_link(random, plan),
        3..=6 => edit_region(random, plan),
        7..=9 => edit_parameter(random, plan),
        10..=13 => edit_item(random, plan),
        14 => plan.tolerance = random.pick(&[None, Some(0), Some(1), Some(3)]),
        _ => plan.release = random.pick(&[None, Some(1), Some(2)]),
    }
    mend(plan);
}

/// Takes the parameters out whose spans are no longer wholly in regions.
pub fn mend(plan: &mut Plan) {
    let regions = plan.regions.clone();
    plan.parameters.retain(|parameter| {
        let regions = regions.iter().copied();
        find_span(regions, parameter.address, usize::from(parameter.size)).is_some()
    });
}

fn edit_link(random: &mut Random, plan: &mut Plan) {
    let fields = random.pick(&[0, 1, 2, 3, 4, 5, 6, 7]);
    if fields == 0 {
        *plan = other_type(plan);
    }
    if fields & 1 != 0 && plan.wire.link_kind == 1 {
        plan.pdu_length = random.pick(&LENGTHS);
    }
    if fields & 2 != 0 {
        plan.version = plan.version.wrapping_add(1 + random.octet() % 255);
    }
    if fields & 4 != 0 {
        plan.profile = random.octet();
    }
}

fn other_type(plan: &Plan) -> Plan {
    if plan.wire.link_kind == 1 {
        return plan.clone().in_short();
    }
    Plan {
        wire: Plan::bare(16).wire,
        ..plan.clone()
    }
}

/// Its end never comes later, so that regions stay apart.
fn edit_region(random: &mut Random, plan: &mut Plan) {
    if plan.regions.is_empty() {
        return;
    }
    let at = random.index(plan.regions.len());
    let region = &mut plan.regions[at];
    match random.below(6) {
        0 => drop(plan.regions.remove(at)),
        1 | 2 => region.rights ^= 1 + random.octet() % 7,
        3 => region.length = 1 + random.below(region.length),
        4 => {
            region.rights ^= 1 + random.octet() % 7;
            region.length = 1 + random.below(region.length);
        }
        _ if region.length > 1 => {
            region.start += 1;
            region.length -= 1;
        }
        _ => (),
    }
}

fn edit_parameter(random: &mut Random, plan: &mut Plan) {
    if plan.parameters.is_empty() {
        return;
    }
    let at = random.index(plan.parameters.len());
    let next = plan
        .parameters
        .get(at + 1)
        .map_or(0x1_0000, |next| u32::from(next.number));
    let parameter = &mut plan.parameters[at];
    match random.below(6) {
        0 => drop(plan.parameters.remove(at)),
        1 | 2 => parameter.address = parameter.address.wrapping_add(1),
        3 => parameter.size = 1 + random.octet() % parameter.size,
        4 => {
            parameter.address = parameter.address.wrapping_add(1);
            parameter.size = 1 + random.octet() % parameter.size;
        }
        _ if u32::from(parameter.number) + 1 < next => parameter.number += 1,
        _ => (),
    }
}

fn edit_item(random: &mut Random, plan: &mut Plan) {
    if plan.items.is_empty() || random.chance(10) && plan.items.len() < 32 {
        return add_item(random, plan);
    }
    let at = random.index(plan.items.len());
    let octets = &mut plan.items[at].octets;
    let last = octets.len() - 1;
    match random.below(6) {
        0 => drop(plan.items.remove(at)),
        1 => octets[last] ^= 1 + random.octet() % 255,
        2 => octets[random.index(last + 1)] ^= 1 << random.below(8),
        // A zero more changes the length alone.
        3 if last < 31 => octets.push(0),
        4 if last < 31 => octets.push(1 + random.octet() % 255),
        _ => octets.truncate(1 + random.index(last + 1)),
    }
}

fn add_item(random: &mut Random, plan: &mut Plan) {
    let code = random.octet();
    if plan.items.iter().all(|item| item.code != code) {
        let length = 1 + random.index(32);
        plan.items.push(item(code, &random.octets(length)));
        plan.items.sort_by_key(|item| item.code);
    }
}
