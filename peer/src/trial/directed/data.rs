//! Parameter, ID and memory commands with every field at and past its limits.

use crate::engine::memory_mode;
use crate::trial::build;
use crate::trial::plan::{each_type, item, parameter, region, Plan, LENGTHS};
use crate::trial::probe::{exchange_from, take_plan, Outcome};
use crate::trial::rig::Rig;
use crate::trial::samples::both_ends;
use crate::trial::states::{counting_state, plain_state, ASYNC};

pub fn run(rig: &mut Rig) -> Outcome {
    for plan in each_type(parameter_plan) {
        rig.origin = "directed: parameter commands".to_string();
        parameters(rig, &plan)?;
    }
    for plan in each_type(item_plan) {
        rig.origin = "directed: ID_RD".to_string();
        identities(rig, &plan)?;
    }
    for length in LENGTHS {
        rig.origin = "directed: modes of memory commands".to_string();
        memory_modes(rig, &both_ends(length))?;
        rig.origin = "directed: counts and addresses of memory commands".to_string();
        memory_spans(rig, &both_ends(length))?;
    }
    for bare in each_type(Plan::bare) {
        rig.origin = "directed: rights along a span".to_string();
        rights_along_spans(rig, &bare)?;
    }
    Ok(())
}

/// From links 2 and 3, the latter in step.
fn in_both_links(rig: &mut Rig, plan: &Plan, command: &[u8]) -> Outcome {
    exchange_from(rig, &plain_state(plan.pdu_length, ASYNC), command)?;
    let state = counting_state(plan.pdu_length, 3, 3);
    let mut command = command.to_vec();
    build::follow(plan.wire, &mut command, &state);
    exchange_from(rig, &state, &command)
}

/// Parameters of all sizes around what each L carries, with close numbers.
fn parameter_plan(pdu_length: u8) -> Plan {
    let sizes = [1, 2, 7, 8, 9, 23, 24, 25, 39, 40, 41, 55, 56];
    let mut plan = Plan::bare(pdu_length);
    plan.regions = vec![
        region(0x80, 40, 7),
        region(0xA8, 1, 7),
        region(0xA9, 100, 7),
    ];
    for (index, &size) in sizes.iter().enumerate() {
        let number = [
            0, 1, 2, 0xFE, 0xFF, 0x100, 0x101, 0x102, 0x1FF, 0x200, 0x7FFF, 0x8000, 0xFFFF,
        ][index];
        plan.parameters
            .push(parameter(number, 0x80 + 3 * index as u32, size));
    }
    plan
}

fn parameters(rig: &mut Rig, plan: &Plan) -> Outcome {
    take_plan(rig, plan);
    for parameter in &plan.parameters {
        let beside = [
            parameter.number,
            parameter.number.wrapping_add(1),
            parameter.number.swap_bytes(),
        ];
        for number in beside {
            for size in 0..=255 {
                in_both_links(rig, plan, &build::parameter(plan, 0x01, number, size))?;
                in_both_links(rig, plan, &build::parameter(plan, 0x02, number, size))?;
            }
        }
    }
    Ok(())
}

fn item_plan(pdu_length: u8) -> Plan {
    let mut plan = Plan::bare(pdu_length);
    for (code, length) in [(0, 1), (1, 8), (0x7F, 9), (0x80, 24), (0xFF, 32)] {
        plan.items.push(item(code, &build::distinct_octets(length)));
    }
    plan
}

fn identities(rig: &mut Rig, plan: &Plan) -> Outcome {
    take_plan(rig, plan);
    let offsets = || (0..35).chain([0x7F, 0x80, 0xFE, 0xFF]);
    let sizes = || {
        (0..58).chain([
            0xFF, 0x100, 0x101, 0x102, 0x108, 0x1000, 0x8001, 0xFF01, 0xFFFE, 0xFFFF,
        ])
    };
    for code in [0, 1, 2, 0x7F, 0x80, 0xFE, 0xFF] {
        for offset in offsets() {
            for size in sizes() {
                in_both_links(rig, plan, &build::identity(plan, code, offset, size))?;
            }
        }
    }
    Ok(())
}

fn memory_modes(rig: &mut Rig, plan: &Plan) -> Outcome {
    take_plan(rig, plan);
    for mode in 0..=255 {
        for count in [0, 1, 2, 4] {
            for code in [0x1D, 0x1E] {
                in_both_links(rig, plan, &build::memory(plan, code, mode, count, 0))?;
            }
        }
    }
    Ok(())
}

/// Addresses around every edge of every region, and around both ends.
fn addresses(plan: &Plan) -> Vec<u64> {
    let mut addresses = Vec::new();
    for region in &plan.regions {
        for edge in [region.start, region.end()] {
            addresses.extend((0..6).map(|step| (edge + step).wrapping_sub(3) & 0xFFFF_FFFF));
        }
    }
    addresses.sort_unstable();
    addresses.dedup();
    addresses
}

fn memory_spans(rig: &mut Rig, plan: &Plan) -> Outcome {
    take_plan(rig, plan);
    let addresses = addresses(plan);
    let counts = (0..56).chain([
        0xFF, 0x100, 0x101, 0x2000, 0x4000, 0x4001, 0x7FFF, 0x8000, 0x8001, 0x8002, 0xC001, 0xFFFF,
    ]);
    for count in counts {
        for element_code in 1..=3 {
            let mode = memory_mode::octet(element_code);
            for &address in &addresses {
                for code in [0x1D, 0x1E] {
                    in_both_links(rig, plan, &build::memory(plan, code, mode, count, address))?;
                }
            }
        }
    }
    Ok(())
}

/// Three adjacent regions with every combination of rights: of each span the
/// first, the middle or the last part may lack the right.
fn rights_along_spans(rig: &mut Rig, bare: &Plan) -> Outcome {
    for rights in 0..512u64 {
        let mut plan = bare.clone();
        for part in 0..3 {
            let part_rights = (rights >> (3 * part)) as u8 & 7;
            plan.regions.push(region(0x10 + 2 * part, 2, part_rights));
        }
        plan.parameters = vec![
            parameter(1, 0x11, 4),
            parameter(2, 0x10, 6),
            parameter(3, 0x10, 3),
        ];
        take_plan(rig, &plan);
        for (address, count) in [
            (0x10, 1),
            (0x11, 2),
            (0x11, 4),
            (0x10, 6),
            (0x13, 3),
            (0x13, 2),
        ] {
            for code in [0x1D, 0x1E] {
                let mode = memory_mode::octet(1);
                in_both_links(
                    rig,
                    &plan,
                    &build::memory(&plan, code, mode, count, address),
                )?;
            }
        }
        for (number, size) in [(1, 4), (2, 6), (3, 3)] {
            for code in [0x01, 0x02] {
                in_both_links(rig, &plan, &build::parameter(&plan, code, number, size))?;
            }
        }
    }
    Ok(())
}
