//! Request 13: traces under each release, whose commands are accepted, refused
//! for a reserved octet, and changed in each octet.

use crate::trial::build;
use crate::trial::call::Call;
use crate::trial::named::{hush, reserved};
use crate::trial::plan::{each_type, Plan};
use crate::trial::probe::{take_plan, Outcome};
use crate::trial::recorder::Recorder;
use crate::trial::rig::Rig;
use crate::trial::samples::released;
use crate::trial::states::{plain_state, ASYNC};

pub fn run(rig: &mut Rig) -> Outcome {
    rig.origin = "directed: traces under each release".to_string();
    for release in [Some(1), Some(2)] {
        for plan in each_type(|length| released(length, Some(1), release)) {
            take_plan(rig, &plan);
            let recorder = record(&plan);
            recorder.lend_to(&mut rig.inputs);
            rig.expect(Call::Replay, recorder.records << 32)?;
            changed(rig, &recorder)?;
            other_release(rig, &plan, &recorder)?;
        }
    }
    Ok(())
}

/// Each command with the first reserved octet set, with the last of them, and with none.
fn record(plan: &Plan) -> Recorder {
    let memory = build::distinct_octets(plan.memory_length());
    let mut recorder = Recorder::new(&plain_state(plan.pdu_length, ASYNC), &memory);
    for mut command in [
        build::parameter(plan, 0x02, 0x0007, 3),
        build::command(plan, 0x0D),
        build::alarm_mode(plan, 0x06, 0),
        build::identity(plan, 0x80, 2, 3),
        build::parameter(plan, 0x02, 0x0006, 8),
    ] {
        hush(plan.wire, &mut command);
        let octets = reserved(plan.wire, &command);
        for set in [octets.first(), octets.last(), None] {
            let mut command = command.clone();
            if let Some(&at) = set {
                command[at] |= 0x04;
            }
            build::follow(plan.wire, &mut command, recorder.current_state());
            recorder.record(&plan.octets(), &command);
        }
    }
    recorder
}

fn changed(rig: &mut Rig, recorder: &Recorder) -> Outcome {
    for at in 0..recorder.trace.len() {
        for flip in [0x04, 0x80] {
            recorder.lend_to(&mut rig.inputs);
            rig.inputs.trace[at] ^= flip;
            rig.call(Call::Replay)?;
        }
    }
    Ok(())
}

/// What release 2 refused is accepted by release 1, and the other way about.
fn other_release(rig: &mut Rig, plan: &Plan, recorder: &Recorder) -> Outcome {
    for release in [None, Some(1), Some(2)] {
        let other = Plan {
            release,
            ..plan.clone()
        };
        recorder.lend_to(&mut rig.inputs);
        rig.inputs.sheet = other.octets();
        rig.call(Call::Replay)?;
    }
    rig.inputs.sheet = plan.octets();
    Ok(())
}

#[cfg(test)]
mod tests {
    use super::*;
    use crate::trial::engines::PEER;

    #[test]
    fn every_trace_agrees_with_itself() {
        let outcome = run(&mut Rig::new(PEER));
        assert_eq!(outcome.err().map(|found| found.to_string()), None);
    }

    /// Fifteen records, of which ten have a reserved octet.
    #[test]
    fn release_2_refuses_two_of_three_records() {
        let plan = released(32, Some(1), Some(2));
        let recorder = record(&plan);
        let replies = recorder.trace.chunks(65).map(|record| &record[33..]);
        let refused = replies.filter(|reply| plan.wire.alarm(reply) == 9);
        assert_eq!((recorder.records, refused.count()), (15, 10));
    }
}
