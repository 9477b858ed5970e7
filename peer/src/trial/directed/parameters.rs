//! Request 8: a good sheet has every parameter's span in its regions, so behind
//! number and size a parameter command asks the right alone, of each octet.

use crate::engine::region::{Region, READ, WRITE_ASYNC, WRITE_SYNC};
use crate::engine::sheet::Parameter;
use crate::trial::build;
use crate::trial::call::Call;
use crate::trial::plan::{each_type, parameter, region, Plan};
use crate::trial::probe::{exchange_from, judge_sheet_briefly, take_plan, unexpected, Outcome};
use crate::trial::rig::Rig;
use crate::trial::states::{counting_state, plain_state, ASYNC};

const ADDRESSES: u64 = 1 << 32;
const NUMBER: u16 = 0x0203;
const ALL: u8 = 7;
const ALARM_DATA: u8 = 9;
const ALARM_RIGHTS: u8 = 10;
const SPAN_FAULT: u64 = 17;

pub fn run(rig: &mut Rig) -> Outcome {
    for bare in each_type(Plan::bare) {
        rig.origin = "directed: rights of parameters".to_string();
        for size in sizes(bare.pdu_length) {
            missing_rights(rig, &bare, size)?;
            data_before_rights(rig, &bare, size)?;
        }
        rig.origin = "directed: parameters at the ends of what is mapped".to_string();
        for size in sizes(bare.pdu_length) {
            mapped_ends(rig, &bare, size)?;
        }
    }
    Ok(())
}

/// What a PDU of this L can carry of a parameter.
fn carried(pdu_length: u8) -> u8 {
    pdu_length - 8
}

/// The smallest, the largest, and those around what this L carries.
fn sizes(pdu_length: u8) -> Vec<u8> {
    let carried = carried(pdu_length);
    let mut sizes = vec![1, 2, 3, carried.max(1) - 1, carried, carried + 1, 55, 56];
    sizes.retain(|size| (1..=56).contains(size));
    sizes.sort_unstable();
    sizes.dedup();
    sizes
}

/// Each way to use a parameter: the state, the code, and the right it needs.
fn uses(pdu_length: u8) -> [(Vec<u8>, u8, u8); 4] {
    let asynchronous = plain_state(pdu_length, ASYNC);
    let synchronous = counting_state(pdu_length, 3, 3);
    [
        (asynchronous.clone(), 0x01, READ),
        (asynchronous, 0x02, WRITE_ASYNC),
        (synchronous.clone(), 0x01, READ),
        (synchronous, 0x02, WRITE_SYNC),
    ]
}

/// One command on a parameter, which both engines have to give this alarm.
fn expect_alarm(rig: &mut Rig, state: &[u8], mut command: Vec<u8>, alarm: u8) -> Outcome {
    build::follow(rig.wire(), &mut command, state);
    exchange_from(rig, state, &command)?;
    if rig.alarm() == alarm {
        return Ok(());
    }
    Err(unexpected(rig, state, "the alarm expected"))
}

/// All uses of the plan's parameter, whose octets have these rights in common.
fn expect_rights(rig: &mut Rig, plan: &Plan, rights: u8) -> Outcome {
    let Parameter { number, size, .. } = plan.parameters[0];
    for (state, code, right) in uses(plan.pdu_length) {
        let alarm = if size > carried(plan.pdu_length) {
            ALARM_DATA
        } else if rights & right == 0 {
            ALARM_RIGHTS
        } else {
            0
        };
        let command = build::parameter(plan, code, number, size);
        expect_alarm(rig, &state, command, alarm)?;
    }
    Ok(())
}

/// One octet with each of the rights, the others with all: each octet of the
/// span, and the one before and behind it, which are not asked.
fn missing_rights(rig: &mut Rig, bare: &Plan, size: u8) -> Outcome {
    let end = u64::from(size) + 2;
    for base in [0, 0x1000, ADDRESSES - end] {
        for at in 0..end {
            for rights in 0..ALL {
                let mut plan = bare.clone();
                plan.regions = split(base, end, at, rights);
                plan.parameters = vec![parameter(NUMBER, base as u32 + 1, size)];
                take_plan(rig, &plan);
                let inside = at != 0 && at != end - 1;
                expect_rights(rig, &plan, if inside { rights } else { ALL })?;
            }
        }
    }
    Ok(())
}

/// Regions without a gap, one of them the single octet of these rights.
fn split(base: u64, length: u64, at: u64, rights: u8) -> Vec<Region> {
    let mut regions = vec![
        region(base, at, ALL),
        region(base + at, 1, rights),
        region(base + at + 1, length - at - 1, ALL),
    ];
    regions.retain(|region| region.length > 0);
    regions
}

/// A parameter that no use has the right to: number and size are asked first.
fn data_before_rights(rig: &mut Rig, bare: &Plan, size: u8) -> Outcome {
    let mut plan = bare.clone();
    plan.regions = vec![region(0x40, 64, 0)];
    plan.parameters = vec![parameter(NUMBER, 0x41, size)];
    take_plan(rig, &plan);
    expect_rights(rig, &plan, 0)?;
    let beside = [
        (NUMBER + 1, size),
        (NUMBER.swap_bytes(), size),
        (NUMBER, size - 1),
        (NUMBER, size + 1),
    ];
    for (state, code, _) in uses(bare.pdu_length) {
        for (number, size) in beside {
            let command = build::parameter(&plan, code, number, size);
            expect_alarm(rig, &state, command, ALARM_DATA)?;
        }
    }
    Ok(())
}

/// What is mapped begins and ends at both ends of the addresses and at gaps of one octet.
fn layouts() -> Vec<Vec<Region>> {
    vec![
        vec![region(0, 60, ALL), region(61, 60, ALL)],
        vec![
            region(0x100, 1, 0),
            region(0x102, 58, ALL),
            region(0x13C, 1, ALL),
        ],
        vec![
            region(0x100, 60, 5),
            region(0x13C, 1, 3),
            region(0x13E, 9, 0),
        ],
        vec![region(8, 4, 0), region(ADDRESSES - 60, 60, ALL)],
    ]
}

/// Parameters at the first and the last mapped address are used; one octet
/// before or behind is fault 17.
fn mapped_ends(rig: &mut Rig, bare: &Plan, size: u8) -> Outcome {
    for regions in layouts() {
        let mut plan = bare.clone();
        plan.regions = regions;
        for (start, length) in plan.runs() {
            let octets = u64::from(size);
            if length < octets {
                continue;
            }
            let end = start + length;
            use_span(rig, &mut plan, start, size)?;
            use_span(rig, &mut plan, end - octets, size)?;
            refuse_span(rig, &mut plan, start.wrapping_sub(1), size)?;
            refuse_span(rig, &mut plan, end - octets + 1, size)?;
            refuse_span(rig, &mut plan, end - octets, size + 1)?;
        }
    }
    Ok(())
}

/// A parameter that lies in the regions from there on.
fn use_span(rig: &mut Rig, plan: &mut Plan, start: u64, size: u8) -> Outcome {
    let end = start + u64::from(size);
    plan.parameters = vec![parameter(NUMBER, start as u32, size)];
    rig.inputs.sheet = plan.octets();
    rig.expect(Call::Sheet, 0)?;
    take_plan(rig, plan);
    let touched = |region: &&Region| region.start < end && start < region.end();
    let touched = plan.regions.iter().filter(touched);
    let rights = touched.fold(ALL, |rights, region| rights & region.rights);
    expect_rights(rig, plan, rights)
}

/// A parameter with an octet that is in no region, also behind the last address,
/// where it is named anew from 0; 57 octets are another fault.
fn refuse_span(rig: &mut Rig, plan: &mut Plan, start: u64, size: u8) -> Outcome {
    if size > 56 {
        return Ok(());
    }
    plan.parameters = vec![parameter(NUMBER, start as u32, size)];
    let place = 4 + 10 * plan.regions.len() as u64;
    rig.inputs.sheet = plan.octets();
    rig.expect(Call::Sheet, SPAN_FAULT | place << 32)?;
    judge_sheet_briefly(rig, &plan.octets())
}
