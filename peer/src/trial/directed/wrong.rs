//! Request 3: every set of wrong fields of every command at once. The first in
//! document 01's order is told, and none where link, code or watchdog come before.

use crate::engine::memory_mode;
use crate::trial::build;
use crate::trial::plan::{each_type, item, parameter, region, Plan};
use crate::trial::probe::{expect_told, expect_told_in_step, take_plan, Outcome, Told};
use crate::trial::rig::Rig;
use crate::trial::states::{counting_state, plain_state, ASYNC, DISCONNECTED};

const ACCEPTED: Told = (0, 0);
const LOST_CYCLE: Told = (0, 0);
const UNKNOWN_CODE: Told = (8, 0);
const OTHER_LINK: Told = (12, 0);
const NO_ROOM: Told = (9, 0);
/// Two octets of the plan's first stretch come before those without a right.
const LACKING: Told = (10, 2);
const NUMBER: u16 = 0x0203;
const ITEM: u8 = 0x42;
const START: u64 = 0x40;
/// The counters of the state that counts.
const LAST_MN: u8 = 3;
const RSN: u8 = 9;

pub fn run(rig: &mut Rig) -> Outcome {
    rig.origin = "directed: fields of a command wrong at once".to_string();
    for rights in [7, 0] {
        for plan in each_type(|length| plan(length, rights)) {
            take_plan(rig, &plan);
            for case in cases(&plan, rights) {
                every_set(rig, &plan, &case)?;
            }
        }
    }
    Ok(())
}

/// A wrong field: the octets it takes, and what is told of it.
pub struct Wrong {
    pub at: usize,
    pub octets: Vec<u8>,
    pub told: Told,
}

/// A command, what is told of it, and its wrong fields in document 01's order.
pub struct Case {
    pub command: Vec<u8>,
    pub told: Told,
    pub wrong: Vec<Wrong>,
}

fn at(at: usize, octets: &[u8], told: Told) -> Wrong {
    Wrong {
        at,
        octets: octets.to_vec(),
        told,
    }
}

/// Behind the second octet the first stretch has these rights.
pub fn plan(pdu_length: u8, rights: u8) -> Plan {
    Plan {
        regions: vec![
            region(START, 2, 7),
            region(START + 2, 60, rights),
            region(START + 70, 3, rights),
        ],
        parameters: vec![parameter(NUMBER, START as u32, 5)],
        items: vec![item(ITEM, &build::distinct_octets(5))],
        ..Plan::bare(pdu_length)
    }
}

pub fn cases(plan: &Plan, rights: u8) -> Vec<Case> {
    let mut cases = vec![identity_case(plan), connect_case(plan)];
    cases.extend([0x01, 0x02].map(|code| parameter_case(plan, code, rights)));
    cases.extend([0x05, 0x06].map(|code| alarm_case(plan, code)));
    cases.extend([0x1D, 0x1E].map(|code| memory_case(plan, code, rights)));
    cases.retain(|case| plan.wire.knows(case.command[0]));
    for case in &mut cases {
        let length = case.command.len();
        case.wrong
            .retain(|wrong| wrong.at + wrong.octets.len() <= length);
    }
    cases
}

/// At L 8 there is no room for the good size either.
fn with_room(plan: &Plan, told: Told) -> Told {
    if plan.pdu_length == 8 {
        (9, 6)
    } else {
        told
    }
}

fn right_told(rights: u8) -> Told {
    if rights == 0 {
        LACKING
    } else {
        ACCEPTED
    }
}

fn parameter_case(plan: &Plan, code: u8, rights: u8) -> Case {
    let [low, high] = NUMBER.to_le_bytes();
    Case {
        command: build::parameter(plan, code, NUMBER, 5),
        told: with_room(plan, right_told(rights)),
        wrong: vec![
            at(4, &[low + 1], (9, 4)),
            at(5, &[high - 1], (9, 4)),
            at(6, &[4], (9, 6)),
            at(6, &[255], (9, 6)),
        ],
    }
}

fn identity_case(plan: &Plan) -> Case {
    let mut wrong = vec![
        at(4, &[ITEM - 1], (9, 4)),
        // Offset 2 and size 4, or offset 1 and size 5, go past the item.
        at(5, &[2], (9, 6)),
        at(5, &[0xFF], (9, 6)),
        at(6, &[5], (9, 6)),
        at(6, &[0, 0], (9, 6)),
    ];
    if plan.wire.field_octets == 2 {
        wrong.push(at(7, &[1], (9, 6)));
    }
    Case {
        command: build::identity(plan, ITEM, 1, 4),
        told: with_room(plan, ACCEPTED),
        wrong,
    }
}

fn alarm_case(plan: &Plan, code: u8) -> Case {
    let no_room = code == 0x05 && plan.pdu_length == 8;
    let failed = if no_room { NO_ROOM } else { (9, 4) };
    let mut wrong = vec![at(4, &[1], failed), at(4, &[0x80], failed)];
    if plan.wire.field_octets == 2 {
        wrong.push(at(5, &[0x80], failed));
    }
    Case {
        command: build::alarm_mode(plan, code, 0),
        told: if no_room { NO_ROOM } else { ACCEPTED },
        wrong,
    }
}

fn connect_case(plan: &Plan) -> Case {
    let mut wrong = vec![
        at(4, &[plan.version + 1], (9, 4)),
        at(5, &[0x04], (9, 5)),
        at(5, &[0x86], (9, 5)),
        at(6, &[1], (9, 6)),
        at(6, &[0], (9, 6)),
    ];
    if plan.wire.names_profile {
        wrong.push(at(7, &[plan.profile ^ 0x80], (9, 7)));
    }
    Case {
        command: build::connect(plan, 6, 2),
        told: ACCEPTED,
        wrong,
    }
}

fn memory_case(plan: &Plan, code: u8, rights: u8) -> Case {
    let mode = memory_mode::octet(1);
    // Wholly in no region, from its first octet on, and from its last on.
    let unmapped = [0x2000u32, START as u32 - 1, START as u32 + 70];
    let mut wrong = vec![
        at(5, &[0x10], (9, 5)),
        at(5, &[mode ^ 0x80], (9, 5)),
        at(6, &[0], (9, 6)),
        at(6, &[plan.pdu_length - 7], (9, 6)),
        at(7, &[0x40], (9, 6)),
    ];
    wrong.extend(unmapped.map(|address| at(8, &address.to_le_bytes(), (9, 8))));
    Case {
        command: build::memory(plan, code, mode, 4, START),
        told: with_room(plan, right_told(rights)),
        wrong,
    }
}

/// What none, each, each two and more of the wrong fields give.
fn every_set(rig: &mut Rig, plan: &Plan, case: &Case) -> Outcome {
    for set in 0..1 << case.wrong.len() {
        let mut command = case.command.clone();
        let mut told = case.told;
        // From the last on, so that the first is what remains.
        for (index, wrong) in case.wrong.iter().enumerate().rev() {
            if set >> index & 1 == 1 {
                command[wrong.at..wrong.at + wrong.octets.len()].copy_from_slice(&wrong.octets);
                told = wrong.told;
            }
        }
        in_every_link(rig, plan, &command, told)?;
    }
    Ok(())
}

/// Told in the links that allow the code; link, code and watchdog have place 0.
pub fn in_every_link(rig: &mut Rig, plan: &Plan, command: &[u8], told: Told) -> Outcome {
    let counting = counting_state(plan.pdu_length, LAST_MN, RSN);
    let connect = command[0] == 0x0E;
    let mut unknown = command.to_vec();
    unknown[0] |= 0x60;
    for link in [DISCONNECTED, ASYNC] {
        let state = plain_state(plan.pdu_length, link);
        let allowed = connect == (link == DISCONNECTED);
        let expected = if allowed { told } else { OTHER_LINK };
        expect_told(rig, &state, command, expected)?;
        expect_told(rig, &state, &unknown, UNKNOWN_CODE)?;
    }
    let expected = if connect { OTHER_LINK } else { told };
    expect_told_in_step(rig, &counting, command, expected)?;
    expect_told_in_step(rig, &counting, &unknown, UNKNOWN_CODE)?;
    // By MN, by SN, and by both.
    for wdt in [RSN << 4 | LAST_MN, 0x10 | (LAST_MN + 1), 0x10 | LAST_MN] {
        let mut lost = command.to_vec();
        lost[plan.wire.wdt] = wdt;
        expect_told(rig, &counting, &lost, LOST_CYCLE)?;
    }
    Ok(())
}
