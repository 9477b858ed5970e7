//! Accepted commands of every code, each octet in turn with every value.

use crate::engine::memory_mode;
use crate::trial::build;
use crate::trial::plan::Plan;
use crate::trial::probe::{exchange_from, take_plan, Outcome};
use crate::trial::rig::Rig;
use crate::trial::samples::both_ends;
use crate::trial::states::{counting_state, plain_state, ASYNC, DISCONNECTED};

/// Behind these a command of `accepted` holds nothing but data.
const HEAD: usize = 16;

pub fn run(rig: &mut Rig) -> Outcome {
    rig.origin = "directed: every octet of a command with every value".to_string();
    let enhanced = [8, 16, 64].map(both_ends);
    for plan in enhanced.into_iter().chain([both_ends(16).in_short()]) {
        take_plan(rig, &plan);
        for command in accepted(&plan) {
            every_octet(rig, &first_state(&plan, command[0]), &command)?;
            let counting = counting_state(plan.pdu_length, 0, 0);
            every_octet(rig, &latched(counting), &command)?;
        }
    }
    Ok(())
}

/// One command of each code that some link takes, where L has room for it and the type has it.
pub fn accepted(plan: &Plan) -> Vec<Vec<u8>> {
    let [octets, words] = [1, 2].map(memory_mode::octet);
    let mut commands = vec![
        build::command(plan, 0x00),
        build::parameter(plan, 0x01, 0x0107, 8),
        build::parameter(plan, 0x02, 0x0107, 8),
        build::identity(plan, 0x80, 2, 3),
        build::alarm_mode(plan, 0x05, 0),
        build::alarm_mode(plan, 0x06, 0),
        build::command(plan, 0x0D),
        build::connect(plan, 6, 3),
        build::command(plan, 0x0F),
        build::memory(plan, 0x1D, octets, 3, 1),
        build::memory(plan, 0x1E, words, 2, 6),
    ];
    commands.retain(|command| plan.wire.knows(command[0]));
    commands
}

/// CONNECT is taken in link 1 alone.
pub fn first_state(plan: &Plan, code: u8) -> Vec<u8> {
    let link = if code == 0x0E { DISCONNECTED } else { ASYNC };
    latched(plain_state(plan.pdu_length, link))
}

fn latched(mut state: Vec<u8>) -> Vec<u8> {
    state[9] = 12;
    state
}

fn every_octet(rig: &mut Rig, state: &[u8], command: &[u8]) -> Outcome {
    let mut command = command.to_vec();
    build::follow(rig.wire(), &mut command, state);
    for at in 0..command.len().min(HEAD) {
        for octet in 0..=255 {
            let mut changed = command.clone();
            changed[at] = octet;
            exchange_from(rig, state, &changed)?;
        }
    }
    Ok(())
}
