//! Request 1: the identity in bits 6 and 7 of octet 2 comes back in every built
//! reply, and no other bit of octets 2 and 3 changes anything. In the short type
//! those two do not come back either (request 7).

use crate::engine::memory_mode;
use crate::trial::build;
use crate::trial::call::Call;
use crate::trial::plan::{each_type, Plan};
use crate::trial::probe::{left_from, take_plan, unexpected, Outcome};
use crate::trial::recorder::Recorder;
use crate::trial::report::Difference;
use crate::trial::rig::Rig;
use crate::trial::samples::tolerant;
use crate::trial::states::{counting_state, plain_state, ASYNC, DISCONNECTED};

const IDENTITIES: [u8; 4] = [0x00, 0x40, 0x80, 0xC0];
const DIFFERENT: u64 = 34;
/// The last MN of the states that count.
const LAST_MN: u8 = 3;

pub fn run(rig: &mut Rig) -> Outcome {
    for tolerance in [None, Some(1)] {
        for plan in each_type(|length| tolerant(length, tolerance)) {
            take_plan(rig, &plan);
            for (state, command) in situations(&plan) {
                rig.origin = "directed: every identity".to_string();
                identities(rig, &state, &command)?;
                rig.origin = "directed: every other bit of octets 2 and 3".to_string();
                single_bits(rig, &state, &command)?;
            }
            rig.origin = "directed: identities in a replay".to_string();
            replays(rig, &plan)?;
        }
    }
    Ok(())
}

/// Accepted, alarms 8, 9, 10 (at L 8 it is 9) and 12, and a cycle lost or, where the sheet allows it, tolerated.
fn situations(plan: &Plan) -> Vec<(Vec<u8>, Vec<u8>)> {
    let length = plan.pdu_length;
    let mut situations = Vec::new();
    for command in [
        build::command(plan, 0x00),
        build::command(plan, 0x77),
        build::alarm_mode(plan, 0x06, 1),
        build::memory(plan, 0x1E, memory_mode::octet(1), 1, 5),
        build::connect(plan, 2, 1),
    ] {
        let counting = counting_state(length, LAST_MN, 9);
        situations.push((plain_state(length, DISCONNECTED), command.clone()));
        situations.push((plain_state(length, ASYNC), command.clone()));
        // In step, and failing by MN and by SN.
        for wrong in [0x00, 0x01, 0x10] {
            let mut command = command.clone();
            build::follow(plan.wire, &mut command, &counting);
            command[plan.wire.wdt] ^= wrong;
            situations.push((counting.clone(), command));
        }
    }
    situations
}

fn identities(rig: &mut Rig, state: &[u8], command: &[u8]) -> Outcome {
    for identity in IDENTITIES {
        echoes(rig, state, command, [identity, 0])?;
    }
    Ok(())
}

/// Each ignored bit alone beside each identity.
fn single_bits(rig: &mut Rig, state: &[u8], command: &[u8]) -> Outcome {
    for identity in IDENTITIES {
        for bit in 0..6 {
            echoes(rig, state, command, [identity | 1 << bit, 0])?;
        }
        for bit in 0..8 {
            echoes(rig, state, command, [identity, 1 << bit])?;
        }
    }
    Ok(())
}

/// What these octets 2 and 3 give is what zeros give, but for the identity.
fn echoes(rig: &mut Rig, state: &[u8], command: &[u8], control: [u8; 2]) -> Outcome {
    let mut expected = left(rig, state, command, [0, 0])?;
    expected[0][2] |= control[0] & rig.wire().identity;
    if left(rig, state, command, control)? == expected {
        return Ok(());
    }
    Err(unexpected(rig, state, "the echo expected"))
}

/// Reply, state and memory of one exchange with these octets 2 and 3.
fn left(
    rig: &mut Rig,
    state: &[u8],
    command: &[u8],
    control: [u8; 2],
) -> Result<[Vec<u8>; 3], Box<Difference>> {
    let mut command = command.to_vec();
    command[2..4].copy_from_slice(&control);
    left_from(rig, state, &command)
}

/// An accepted, a refused and a failing exchange of one identity.
fn record(plan: &Plan, identity: u8) -> Recorder {
    let memory = build::distinct_octets(plan.memory_length());
    let state = counting_state(plan.pdu_length, LAST_MN, 9);
    let mut recorder = Recorder::new(&state, &memory);
    for (code, wrong) in [(0x00, 0x00), (0x77, 0x00), (0x00, 0x10)] {
        let mut command = build::command(plan, code);
        build::follow(plan.wire, &mut command, recorder.current_state());
        command[plan.wire.wdt] ^= wrong;
        command[2] = identity;
        recorder.record(&plan.octets(), &command);
    }
    recorder
}

/// A command whose identity is not its reply's is a difference at octet 2.
fn replays(rig: &mut Rig, plan: &Plan) -> Outcome {
    let record_length = 1 + 2 * usize::from(plan.pdu_length);
    for identity in IDENTITIES {
        let recorder = record(plan, identity);
        for index in 0..recorder.records {
            for flipped in [0xC0, 0x80, 0x40, 0x20, 0x10, 8, 4, 2, 1, 0] {
                recorder.lend_to(&mut rig.inputs);
                rig.inputs.trace[index as usize * record_length + 1 + 2] ^= flipped;
                let answer = if flipped & plan.wire.identity == 0 {
                    recorder.records << 32
                } else {
                    DIFFERENT | (index * 64 + 2) << 32
                };
                rig.expect(Call::Replay, answer)?;
            }
        }
    }
    Ok(())
}

#[cfg(test)]
mod tests {
    use super::*;
    use crate::trial::engines::PEER;

    #[test]
    fn each_identity_meets_each_alarm_and_each_failure() {
        let mut rig = Rig::new(PEER);
        assert!(run(&mut rig).is_ok());
        let gaps = rig.tally.gaps();
        assert!(!gaps.iter().any(|gap| gap.starts_with("identity")));
    }
}
