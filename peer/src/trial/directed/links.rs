//! Codes in every link, and CONNECT with every mode.

use crate::trial::build;
use crate::trial::plan::{each_type, Plan};
use crate::trial::probe::{exchange_from, take_plan, Outcome};
use crate::trial::rig::Rig;
use crate::trial::samples::both_ends;
use crate::trial::states::{counting_state, plain_state, ASYNC, DISCONNECTED, KIND, SYNC};

pub fn run(rig: &mut Rig) -> Outcome {
    for plan in each_type(both_ends) {
        take_plan(rig, &plan);
        rig.origin = "directed: every code in every link".to_string();
        every_code(rig, &plan)?;
        rig.origin = "directed: alarm modes".to_string();
        alarm_modes(rig, &plan)?;
        rig.origin = "directed: version and profile of CONNECT".to_string();
        connect_names(rig, &plan)?;
    }
    rig.origin = "directed: every com_mod with every com_time".to_string();
    connect_modes(rig, &both_ends(8))
}

/// Every link with its variants, and every pair of latches.
fn states(pdu_length: u8) -> Vec<Vec<u8>> {
    let mut states = vec![
        plain_state(pdu_length, DISCONNECTED),
        plain_state(pdu_length, ASYNC),
        plain_state(pdu_length, SYNC),
        counting_state(pdu_length, 14, 15),
    ];
    states.push(vec![KIND, 3, pdu_length, 1, 9, 1, 15, 7, 0, 0, 0]);
    let mut latched = Vec::new();
    for state in states {
        for command_latch in [0, 8, 9, 10, 12] {
            for communication_latch in [0, 12] {
                let mut record = state.clone();
                record[8] = command_latch;
                record[9] = communication_latch;
                latched.push(record);
            }
        }
    }
    latched
}

/// A body of zeros is good data for some codes, one of ones for none.
fn every_code(rig: &mut Rig, plan: &Plan) -> Outcome {
    for state in states(plan.pdu_length) {
        for code in 0..=255 {
            for body in [0x00, 0xFF] {
                let mut command = vec![body; usize::from(plan.pdu_length)];
                command[0] = code;
                exchange_from(rig, &state, &command)?;
                build::follow(plan.wire, &mut command, &state);
                exchange_from(rig, &state, &command)?;
            }
        }
    }
    Ok(())
}

fn alarm_modes(rig: &mut Rig, plan: &Plan) -> Outcome {
    for state in [
        plain_state(plan.pdu_length, ASYNC),
        vec![KIND, 2, plan.pdu_length, 0, 1, 0, 0, 0, 10, 12, 0],
    ] {
        for code in [0x05, 0x06] {
            for octet in 0..=255u16 {
                exchange_from(rig, &state, &build::alarm_mode(plan, code, octet))?;
                exchange_from(rig, &state, &build::alarm_mode(plan, code, octet << 8))?;
            }
        }
    }
    Ok(())
}

fn connect_names(rig: &mut Rig, plan: &Plan) -> Outcome {
    let state = plain_state(plan.pdu_length, DISCONNECTED);
    for octet in 0..=255 {
        for at in [4, 7] {
            for com_mod in [0, 2, 6] {
                let mut command = build::connect(plan, com_mod, 2);
                command[at] = octet;
                exchange_from(rig, &state, &command)?;
            }
        }
    }
    Ok(())
}

fn connect_modes(rig: &mut Rig, plan: &Plan) -> Outcome {
    take_plan(rig, plan);
    let state = plain_state(plan.pdu_length, DISCONNECTED);
    for com_mod in 0..=255 {
        for com_time in 0..=255 {
            exchange_from(rig, &state, &build::connect(plan, com_mod, com_time))?;
        }
    }
    Ok(())
}
