//! Traces that agree, that differ in any one octet, and that are cut.

use crate::engine::memory_mode;
use crate::trial::build;
use crate::trial::call::Call;
use crate::trial::plan::{each_type, Plan, LENGTHS};
use crate::trial::probe::{take_plan, Outcome};
use crate::trial::recorder::Recorder;
use crate::trial::rig::Rig;
use crate::trial::samples::both_ends;
use crate::trial::states::{old_of, plain_state, ASYNC, DISABLED, LENGTH};

const DIFFERENT: u64 = 34;
const CUT: u64 = 33;
const KIND_UNKNOWN: u64 = 31;
const LONG: u64 = 35;
const LONGEST: usize = (1 << 30) - 1;
/// Octets of a record before its reply: the kind and, for each L, the command.
const KIND: usize = 1;

pub fn run(rig: &mut Rig) -> Outcome {
    for plan in each_type(both_ends) {
        let length = plan.pdu_length;
        take_plan(rig, &plan);
        let recorder = record(&plan);
        rig.origin = "directed: an agreeing trace".to_string();
        recorder.lend_to(&mut rig.inputs);
        rig.expect(Call::Replay, packed(0, recorder.records))?;
        rig.origin = "directed: one octet of a trace changed".to_string();
        change_each_octet(rig, &recorder, usize::from(length))?;
        rig.origin = "directed: two octets of a trace changed".to_string();
        change_two_octets(rig, &recorder)?;
        rig.origin = "directed: a trace cut at every length".to_string();
        cut_everywhere(rig, &recorder, usize::from(length))?;
        rig.origin = "directed: kinds of trace records".to_string();
        change_kinds(rig, &recorder, usize::from(length))?;
        rig.origin = "directed: refusals of a replay".to_string();
        refusals(rig, &recorder, &plan)?;
        lengths_at_the_limit(rig, &recorder, &plan)?;
    }
    Ok(())
}

fn packed(number: u64, place: u64) -> u64 {
    number | place << 32
}

/// Writes, reads, both links, alarms without and with a place, and a write as the last record.
fn commands(plan: &Plan) -> [Vec<u8>; 8] {
    let write = |address| build::memory(plan, 0x1E, memory_mode::octet(2), 2, address);
    let (mut first, mut read, mut last) = (
        write(6),
        build::memory(plan, 0x1D, memory_mode::octet(1), 4, 7),
        write(0xFFFF_FFF2),
    );
    if !plan.wire.has_memory {
        first = build::parameter(plan, 0x02, 0x0107, 8);
        read = build::identity(plan, 0x80, 2, 8);
        last = build::parameter(plan, 0x02, 0x0007, 3);
    }
    [
        first,
        build::command(plan, 0x0D),
        read,
        build::parameter(plan, 0x02, 0x0107, 8),
        build::command(plan, 0x40),
        build::alarm_mode(plan, 0x06, 1),
        build::alarm_mode(plan, 0x05, 0),
        last,
    ]
}

fn record(plan: &Plan) -> Recorder {
    let sheet = plan.octets();
    let memory = build::distinct_octets(plan.memory_length());
    let mut recorder = Recorder::new(&plain_state(plan.pdu_length, ASYNC), &memory);
    for mut command in commands(plan) {
        build::follow(plan.wire, &mut command, recorder.current_state());
        recorder.record(&sheet, &command);
    }
    recorder
}

/// A changed reply octet is told by record and octet; after other changes the
/// two engines have to agree on what they find.
fn change_each_octet(rig: &mut Rig, recorder: &Recorder, length: usize) -> Outcome {
    let record_length = KIND + 2 * length;
    for at in 0..recorder.trace.len() {
        for flip in [0x01, 0x10, 0x80, 0xFF] {
            recorder.lend_to(&mut rig.inputs);
            rig.inputs.trace[at] ^= flip;
            let (record, octet) = (at / record_length, at % record_length);
            if octet < KIND + length {
                rig.call(Call::Replay)?;
            } else {
                let place = record * 64 + octet - KIND - length;
                rig.expect(Call::Replay, packed(DIFFERENT, place as u64))?;
            }
        }
    }
    Ok(())
}

/// Of two changes the first is told.
fn change_two_octets(rig: &mut Rig, recorder: &Recorder) -> Outcome {
    let step = recorder.trace.len() / 29 + 1;
    for first in (0..recorder.trace.len()).step_by(step) {
        for second in (0..recorder.trace.len()).step_by(step) {
            recorder.lend_to(&mut rig.inputs);
            rig.inputs.trace[first] ^= 0x04;
            rig.inputs.trace[second] ^= 0x02;
            rig.call(Call::Replay)?;
        }
    }
    Ok(())
}

fn cut_everywhere(rig: &mut Rig, recorder: &Recorder, length: usize) -> Outcome {
    let record_length = KIND + 2 * length;
    for end in 0..recorder.trace.len() {
        recorder.lend_to(&mut rig.inputs);
        rig.inputs.trace.truncate(end);
        let records = end / record_length;
        let answer = if end % record_length == 0 {
            packed(0, records as u64)
        } else {
            packed(CUT, (records * record_length) as u64)
        };
        rig.expect(Call::Replay, answer)?;
    }
    Ok(())
}

/// Every kind at each record, with a whole and with a cut trace behind it.
fn change_kinds(rig: &mut Rig, recorder: &Recorder, length: usize) -> Outcome {
    let record_length = KIND + 2 * length;
    for record in 0..recorder.records as usize {
        for kind in 0..=255 {
            for less in [0, 1] {
                recorder.lend_to(&mut rig.inputs);
                rig.inputs.trace[record * record_length] = kind;
                let end = recorder.trace.len() - less;
                rig.inputs.trace.truncate(end);
                rig.call(Call::Replay)?;
            }
        }
    }
    Ok(())
}

fn refusals(rig: &mut Rig, recorder: &Recorder, plan: &Plan) -> Outcome {
    for state in [
        plain_state(plan.pdu_length, DISABLED),
        vec![0; LENGTH],
        vec![],
        vec![0x12; LENGTH + 1],
        old_of(&recorder.state),
    ] {
        for memory in [
            0,
            plan.memory_length() - 1,
            plan.memory_length(),
            plan.memory_length() + 1,
        ] {
            for end in [0, 1, recorder.trace.len()] {
                recorder.lend_to(&mut rig.inputs);
                rig.inputs.state = state.clone();
                rig.inputs.memory.resize(memory, 3);
                rig.inputs.trace.truncate(end);
                rig.call(Call::Replay)?;
            }
        }
    }
    for length in LENGTHS {
        recorder.lend_to(&mut rig.inputs);
        rig.inputs.state[2] = length;
        rig.inputs.sheet[1] = length;
        rig.call(Call::Replay)?;
    }
    rig.inputs.sheet = plan.octets();
    Ok(())
}

/// Zeros, the longest trace and one more: nobody looks further than the first.
/// The refusals before come first there too.
fn lengths_at_the_limit(rig: &mut Rig, recorder: &Recorder, plan: &Plan) -> Outcome {
    let zeros = vec![0; LONGEST + 1];
    for (length, answer) in [(LONGEST, KIND_UNKNOWN), (LONGEST + 1, LONG)] {
        rig.origin = format!("directed: a trace of {length} zeros");
        recorder.lend_to(&mut rig.inputs);
        rig.inputs.trace.clear();
        if rig.replay_long(&zeros[..length])? != answer {
            return Err(rig.difference("the answer expected"));
        }
        rig.inputs.memory.push(0);
        rig.replay_long(&zeros[..length])?;
        recorder.lend_to(&mut rig.inputs);
        rig.inputs.trace.clear();
        rig.inputs.state = plain_state(plan.pdu_length, DISABLED);
        rig.replay_long(&zeros[..length])?;
    }
    Ok(())
}
