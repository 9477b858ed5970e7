//! Buffers of wrong length in every combination, so that the order of the
//! refusals is seen and nothing is written on any of them.

use crate::trial::build::{connect, distinct_octets};
use crate::trial::call::Call;
use crate::trial::plan::{each_type, Plan};
use crate::trial::probe::Outcome;
use crate::trial::rig::Rig;
use crate::trial::samples::both_ends;
use crate::trial::states::{old_of, plain_state, ASYNC, DISABLED, DISCONNECTED};

pub fn run(rig: &mut Rig) -> Outcome {
    rig.origin = "directed: buffers of wrong length".to_string();
    for plan in each_type(both_ends) {
        combinations(rig, &plan)?;
    }
    combinations(rig, &Plan::bare(8))?;
    combinations(rig, &Plan::bare(64))
}

fn combinations(rig: &mut Rig, plan: &Plan) -> Outcome {
    let good = plan.octets();
    let bad = good[..good.len() - 1].to_vec();
    let pdu_length = usize::from(plan.pdu_length);
    for sheet in [good, bad] {
        rig.inputs.sheet = sheet;
        for state in states(plan) {
            for memory in lengths_around(plan.memory_length()) {
                for command in lengths_around(pdu_length) {
                    for reply in lengths_around(pdu_length) {
                        rig.inputs.state = state.clone();
                        rig.inputs.memory = distinct_octets(memory);
                        rig.inputs.command = connect(plan, 2, 1);
                        rig.inputs.command.resize(command, 0x1E);
                        rig.inputs.reply = vec![0xEE; reply];
                        rig.call(Call::Exchange)?;
                    }
                }
                replay_with(rig, &state, memory)?;
            }
            rig.inputs.state = state.clone();
            rig.call(Call::Enable)?;
            rig.inputs.state = state;
            rig.call(Call::Reset)?;
        }
    }
    Ok(())
}

fn replay_with(rig: &mut Rig, state: &[u8], memory: usize) -> Outcome {
    for trace in [&[][..], &[0x20], &[0x21], &[0x22], &[0x25]] {
        rig.inputs.state = state.to_vec();
        rig.inputs.memory = distinct_octets(memory);
        rig.inputs.trace = trace.to_vec();
        rig.call(Call::Replay)?;
    }
    Ok(())
}

/// Valid, invalid, from before request 9, and of wrong length.
fn states(plan: &Plan) -> Vec<Vec<u8>> {
    let valid = plain_state(plan.pdu_length, ASYNC);
    let mut invalid = valid.clone();
    invalid[4] = 0;
    let mut states = vec![
        plain_state(plan.pdu_length, DISABLED),
        plain_state(plan.pdu_length, DISCONNECTED),
        invalid,
        old_of(&valid),
        old_of(&plain_state(plan.pdu_length, DISABLED)),
    ];
    for length in [0, 1, 9, 10, 12, 20, 300] {
        let mut resized = valid.clone();
        resized.resize(length, 0);
        states.push(resized);
    }
    states.push(valid);
    states
}

/// Nothing, one less, right, one more, far more.
fn lengths_around(right: usize) -> Vec<usize> {
    let mut lengths = vec![0, right.saturating_sub(1), right, right + 1, right + 200];
    lengths.dedup();
    lengths
}
