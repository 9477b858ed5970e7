//! Request 3: one field of a command at each bound and one past it, with the
//! place that is told of it.

use crate::engine::memory_mode;
use crate::trial::build;
use crate::trial::plan::{each_type, item, parameter, region, Plan};
use crate::trial::probe::{expect_told, expect_told_in_step, take_plan, Outcome, Told};
use crate::trial::rig::Rig;
use crate::trial::states::{counting_state, plain_state, ASYNC, DISCONNECTED};

const ADDRESSES: u64 = 1 << 32;
const ACCEPTED: Told = (0, 0);
const NO_ROOM: Told = (9, 0);
const OCTET_4: Told = (9, 4);
const OCTET_5: Told = (9, 5);
const OCTET_6: Told = (9, 6);
const OCTET_7: Told = (9, 7);
const OCTET_8: Told = (9, 8);

pub fn run(rig: &mut Rig) -> Outcome {
    every_field(rig, each_type(plan))
}

/// The same under release 2, where all that is reserved is zero.
pub fn run_in_release_2(rig: &mut Rig) -> Outcome {
    every_field(rig, each_type(|length| plan(length).in_release_2()))
}

fn every_field(rig: &mut Rig, plans: Vec<Plan>) -> Outcome {
    for plan in plans {
        take_plan(rig, &plan);
        rig.origin = "directed: places of parameters".to_string();
        parameters(rig, &plan)?;
        rig.origin = "directed: places of ID_RD".to_string();
        items(rig, &plan)?;
        rig.origin = "directed: places of alarm modes".to_string();
        alarm_modes(rig, &plan)?;
        rig.origin = "directed: places of CONNECT".to_string();
        connects(rig, &plan)?;
        if plan.wire.has_memory {
            rig.origin = "directed: places of modes and counts".to_string();
            modes_and_counts(rig, &plan)?;
            rig.origin = "directed: places of addresses".to_string();
            addresses(rig, &plan)?;
        }
    }
    Ok(())
}

/// What a PDU of this L carries behind octet 7.
fn carried(plan: &Plan) -> u8 {
    plan.pdu_length - 8
}

/// Every number and code has a free one on both sides, and a span that wrapped would find memory.
fn plan(pdu_length: u8) -> Plan {
    let mut plan = Plan::bare(pdu_length);
    plan.regions = vec![
        region(0, 8, 7),
        region(0x40, 30, 7),
        region(0x5E, 40, 7),
        region(0x87, 70, 7),
        region(ADDRESSES - 64, 64, 7),
    ];
    let carried = carried(&plan);
    let mut sizes = vec![1, 2, carried.max(2) - 1, carried, carried + 1, 55, 56];
    sizes.retain(|size| (1..=56).contains(size));
    for (index, size) in sizes.into_iter().enumerate() {
        let number = 0x0110 + 2 * index as u16;
        plan.parameters.push(parameter(number, 0x41, size));
    }
    for (index, length) in [1, 8, 9, 24, 25, 31, 32].into_iter().enumerate() {
        let octets = build::distinct_octets(length);
        plan.items.push(item(0x11 + 2 * index as u8, &octets));
    }
    plan
}

/// From links 2 and 3, the latter in step.
fn expect(rig: &mut Rig, plan: &Plan, command: &[u8], told: Told) -> Outcome {
    expect_told(rig, &plain_state(plan.pdu_length, ASYNC), command, told)?;
    let counting = counting_state(plan.pdu_length, 15, 9);
    expect_told_in_step(rig, &counting, command, told)
}

fn parameters(rig: &mut Rig, plan: &Plan) -> Outcome {
    for code in [0x01, 0x02] {
        for parameter in &plan.parameters {
            let (number, own) = (parameter.number, parameter.size);
            for free in [number - 1, number + 1, number.swap_bytes(), number & 0xFF] {
                expect(rig, plan, &build::parameter(plan, code, free, own), OCTET_4)?;
            }
            for size in 0..=255 {
                let good = size == own && own <= carried(plan);
                let told = if good { ACCEPTED } else { OCTET_6 };
                expect(rig, plan, &build::parameter(plan, code, number, size), told)?;
            }
        }
    }
    Ok(())
}

/// The bits of a number that the type's field for it has.
fn named(plan: &Plan) -> u16 {
    0xFFFF >> (16 - 8 * plan.wire.field_octets)
}

fn items(rig: &mut Rig, plan: &Plan) -> Outcome {
    let carried = u16::from(carried(plan));
    for item in &plan.items {
        let length = item.octets.len() as u16;
        for free in [item.code - 1, item.code + 1, item.code | 0x80] {
            expect(rig, plan, &build::identity(plan, free, 0, 1), OCTET_4)?;
        }
        for offset in [0, 1, length / 2, length - 1, length, length + 1, 0xFE, 0xFF] {
            let rest = length.saturating_sub(offset);
            let beside = [rest.saturating_sub(1), rest, rest + 1, carried, carried + 1];
            let sizes = [0, 1, 0x100, 0x101, 0x100 | rest, 0x8001, 0xFF01, 0xFFFF];
            for size in beside.into_iter().chain(sizes) {
                let told_size = size & named(plan);
                let good = (1..=rest.min(carried)).contains(&told_size);
                let told = if good { ACCEPTED } else { OCTET_6 };
                let command = build::identity(plan, item.code, offset as u8, size);
                expect(rig, plan, &command, told)?;
            }
        }
    }
    Ok(())
}

/// Octets 4 and 5 are one field, or octet 4 alone; at L 8 ALM_RD has no room, whatever they hold.
fn alarm_modes(rig: &mut Rig, plan: &Plan) -> Outcome {
    let octets = [0, 1, 2, 0x40, 0x80, 0xFF];
    for low in octets {
        for high in octets {
            let mode = high << 8 | low;
            let good = mode & named(plan) == 0;
            let clear = if good { ACCEPTED } else { OCTET_4 };
            let read = if plan.pdu_length == 8 { NO_ROOM } else { clear };
            expect(rig, plan, &build::alarm_mode(plan, 0x05, mode), read)?;
            expect(rig, plan, &build::alarm_mode(plan, 0x06, mode), clear)?;
        }
    }
    Ok(())
}

/// Each field of CONNECT with every value, the others good; transfer 1 needs com_time 2.
fn connects(rig: &mut Rig, plan: &Plan) -> Outcome {
    let state = plain_state(plan.pdu_length, DISCONNECTED);
    let fields = [(4, OCTET_4), (5, OCTET_5), (6, OCTET_6), (7, OCTET_7)];
    for com_mod in [0, 2, 6] {
        let good = build::connect(plan, com_mod, 2);
        for (at, failed) in fields {
            for octet in 0..=255 {
                let mut command = good.clone();
                command[at] = octet;
                let fits = match at {
                    5 => [0, 2, 6].contains(&octet),
                    6 => octet >= 2 || octet == 1 && com_mod != 6,
                    7 if !plan.wire.names_profile => octet == 0 || !plan.asks_zeros(),
                    _ => octet == good[at],
                };
                let told = if fits { ACCEPTED } else { failed };
                expect_told(rig, &state, &command, told)?;
            }
        }
    }
    Ok(())
}

/// What a memory command of so many octets gets: at L 8 none has room.
fn counted(plan: &Plan, octets: u64) -> Told {
    let room = u64::from(plan.pdu_length).saturating_sub(12);
    if (1..=room).contains(&octets) {
        ACCEPTED
    } else {
        OCTET_6
    }
}

fn modes_and_counts(rig: &mut Rig, plan: &Plan) -> Outcome {
    let modes = [1, 2, 3].map(memory_mode::octet);
    for code in [0x1D, 0x1E] {
        for mode in 0..=255 {
            if !modes.contains(&mode) {
                expect(
                    rig,
                    plan,
                    &build::memory(plan, code, mode, 1, 0x40),
                    OCTET_5,
                )?;
            }
        }
        for (mode, element) in modes.into_iter().zip([1, 2, 4]) {
            let most = u64::from(plan.pdu_length).saturating_sub(12) / element;
            let wrapped = 0x1_0000 / element;
            let counts = [
                0,
                1,
                2,
                most,
                most + 1,
                wrapped,
                wrapped + 1,
                0x8001,
                0xFFFF,
            ];
            for count in counts.map(|count| count & 0xFFFF) {
                let command = build::memory(plan, code, mode, count as u16, 0x40);
                expect(rig, plan, &command, counted(plan, count * element))?;
            }
        }
    }
    Ok(())
}

/// Octet by octet; behind the last address there is none.
fn is_mapped(plan: &Plan, start: u64, octets: u64) -> bool {
    let in_region = |at| {
        let mut regions = plan.regions.iter();
        regions.any(|region| region.start <= at && at < region.end())
    };
    (start..start + octets).all(in_region)
}

/// Spans at both ends of each stretch of addresses, and one octet past them.
fn addresses(rig: &mut Rig, plan: &Plan) -> Outcome {
    let most = u64::from(plan.pdu_length).saturating_sub(12).max(1);
    for (start, length) in plan.runs() {
        let end = start + length;
        for octets in [1, 2, 3, most - most / 2, most] {
            let last = end.wrapping_sub(octets);
            for address in [
                start.wrapping_sub(1),
                start,
                last,
                last.wrapping_add(1),
                end,
            ] {
                let address = address % ADDRESSES;
                let told = match counted(plan, octets) {
                    ACCEPTED if !is_mapped(plan, address, octets) => OCTET_8,
                    told => told,
                };
                for code in [0x1D, 0x1E] {
                    let mode = memory_mode::octet(1);
                    let command = build::memory(plan, code, mode, octets as u16, address);
                    expect(rig, plan, &command, told)?;
                }
            }
        }
    }
    Ok(())
}
