//! State records with every octet and every pair of agreeing fields.

use crate::trial::build::{self, distinct_octets};
use crate::trial::call::Call;
use crate::trial::plan::{Plan, LENGTHS};
use crate::trial::probe::Outcome;
use crate::trial::rig::Rig;
use crate::trial::samples::tolerant;
use crate::trial::states::{counting_state, failing_state, plain_state, KIND, LENGTH};

pub fn run(rig: &mut Rig) -> Outcome {
    rig.origin = "directed: every octet of a state record with every value".to_string();
    for length in LENGTHS {
        for tolerance in [None, Some(2)] {
            every_octet(rig, &tolerant(length, tolerance))?;
        }
    }
    every_octet(rig, &tolerant(16, Some(2)).in_short())?;
    rig.origin = "directed: fields of a state record together".to_string();
    fields_together(rig, &tolerant(16, Some(2)))
}

/// All calls that take a state; the exchange has the WDT that it asks for.
fn judge_state(rig: &mut Rig, plan: &Plan, state: &[u8]) -> Outcome {
    let length = usize::from(plan.pdu_length);
    rig.inputs.command = vec![0; length];
    build::follow(plan.wire, &mut rig.inputs.command, state);
    rig.inputs.reply = vec![0xEE; length];
    rig.inputs.trace.clear();
    for call in [Call::Exchange, Call::Enable, Call::Reset, Call::Replay] {
        rig.inputs.state = state.to_vec();
        rig.call(call)?;
    }
    Ok(())
}

fn take(rig: &mut Rig, plan: &Plan) {
    rig.inputs.sheet = plan.octets();
    rig.inputs.memory = distinct_octets(plan.memory_length());
}

fn every_octet(rig: &mut Rig, plan: &Plan) -> Outcome {
    take(rig, plan);
    let mut bases: Vec<Vec<u8>> = (0..4)
        .map(|link| plain_state(plan.pdu_length, link))
        .collect();
    bases.push(counting_state(plan.pdu_length, 15, 9));
    bases.push(failing_state(plan.pdu_length, 0, 7, plan.allowed()));
    bases.push(vec![KIND, 3, plan.pdu_length, 1, 2, 1, 15, 15, 10, 12, 0]);
    bases.push(vec![KIND, 1, plan.pdu_length, 0, 0, 0, 0, 0, 8, 12, 0]);
    for base in bases {
        for at in 0..LENGTH {
            for octet in 0..=255 {
                let mut state = base.clone();
                state[at] = octet;
                judge_state(rig, plan, &state)?;
            }
        }
    }
    Ok(())
}

/// Telling values of the octets behind the kind that old and new records have in common.
pub fn fields(pdu_length: u8) -> [Vec<u8>; 9] {
    [
        vec![0, 1, 2, 3, 4],
        vec![pdu_length],
        vec![0, 1, 2],
        vec![0, 1, 2, 255],
        vec![0, 1, 2],
        vec![0, 1, 15, 16],
        vec![0, 15, 16],
        vec![0, 1, 7, 8, 9, 10, 11, 12, 13],
        vec![0, 8, 12, 13],
    ]
}

fn fields_together(rig: &mut Rig, plan: &Plan) -> Outcome {
    take(rig, plan);
    let mut records = vec![vec![KIND]];
    for choices in fields(plan.pdu_length) {
        records = extend_each(&records, &choices);
    }
    let counts = [0, plan.allowed(), plan.allowed() + 1];
    for record in extend_each(&records, &counts) {
        judge_state(rig, plan, &record)?;
    }
    Ok(())
}

/// Each record with each of these octets behind it.
pub fn extend_each(records: &[Vec<u8>], choices: &[u8]) -> Vec<Vec<u8>> {
    let mut extended = Vec::new();
    for record in records {
        for &choice in choices {
            let mut longer = record.clone();
            longer.push(choice);
            extended.push(longer);
        }
    }
    extended
}
