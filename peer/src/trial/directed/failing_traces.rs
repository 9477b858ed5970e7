//! Request 9: traces with failures that the sheet allows, and with one more.

use super::failures::{wrong_wdt, TOLERANCES};
use crate::engine::memory_mode;
use crate::trial::build;
use crate::trial::call::Call;
use crate::trial::plan::{each_type, Plan};
use crate::trial::probe::{take_plan, Outcome};
use crate::trial::recorder::Recorder;
use crate::trial::rig::Rig;
use crate::trial::samples::tolerant;
use crate::trial::states::{failing_state, FAILURES_AT};

const BAD_STATE: u64 = 1;
const DIFFERENT: u64 = 34;

pub fn run(rig: &mut Rig) -> Outcome {
    rig.origin = "directed: failures in a replay".to_string();
    for tolerance in TOLERANCES {
        for plan in each_type(|length| tolerant(length, tolerance)) {
            take_plan(rig, &plan);
            replays(rig, &plan)?;
            counts(rig, &plan)?;
        }
    }
    Ok(())
}

/// As many failures as are allowed, a write that passes, and one failure more than are allowed.
fn record(plan: &Plan) -> Recorder {
    let memory = build::distinct_octets(plan.memory_length());
    let state = failing_state(plan.pdu_length, 3, 9, 0);
    let mut recorder = Recorder::new(&state, &memory);
    let write = if plan.wire.has_memory {
        build::memory(plan, 0x1E, memory_mode::octet(1), 3, 1)
    } else {
        build::parameter(plan, 0x02, 0x0007, 3)
    };
    let allowed = usize::from(plan.allowed());
    let failing = [vec![true; allowed], vec![false], vec![true; allowed + 1]];
    for failing in failing.concat() {
        let mut command = write.clone();
        build::follow(plan.wire, &mut command, recorder.current_state());
        if failing {
            command[plan.wire.wdt] = wrong_wdt(recorder.current_state(), (0, 3));
        }
        recorder.record(&plan.octets(), &command);
    }
    recorder
}

/// All agree, and a changed reply is told by its record and octet.
fn replays(rig: &mut Rig, plan: &Plan) -> Outcome {
    let length = usize::from(plan.pdu_length);
    let recorder = record(plan);
    recorder.lend_to(&mut rig.inputs);
    rig.expect(Call::Replay, recorder.records << 32)?;
    for index in 0..recorder.records as usize {
        let start = index * (1 + 2 * length) + 1;
        for octet in 0..length {
            recorder.lend_to(&mut rig.inputs);
            rig.inputs.trace[start + length + octet] ^= 2;
            rig.expect(
                Call::Replay,
                DIFFERENT | ((index * 64 + octet) as u64) << 32,
            )?;
        }
        // A failing record that passes, or the other way about.
        for flip in [0x01, 0x10, 0x30, 0x31] {
            recorder.lend_to(&mut rig.inputs);
            rig.inputs.trace[start + plan.wire.wdt] ^= flip;
            rig.call(Call::Replay)?;
        }
    }
    Ok(())
}

/// The trace from every count: one past the sheet's is refused, and any but 0 leaves link 3 too early.
fn counts(rig: &mut Rig, plan: &Plan) -> Outcome {
    let recorder = record(plan);
    for failures in 0..=4 {
        recorder.lend_to(&mut rig.inputs);
        rig.inputs.state[FAILURES_AT] = failures;
        let allowed = plan.allowed();
        // From here on a record's RWDT is another, as its link is 2; its status before it, if that comes first.
        let octet = plan.wire.wdt.min(2) as u64;
        let early = u64::from(allowed.wrapping_sub(failures)) * 64 + octet;
        let answer = match failures {
            0 => recorder.records << 32,
            _ if failures > allowed => BAD_STATE,
            _ => DIFFERENT | early << 32,
        };
        rig.expect(Call::Replay, answer)?;
    }
    Ok(())
}
