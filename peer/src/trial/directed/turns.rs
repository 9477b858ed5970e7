//! Request 9: old records that are turned, with every octet, every length, and every bad sheet.

use super::failures::TOLERANCES;
use super::states::{extend_each, fields};
use crate::trial::build::{self, distinct_octets};
use crate::trial::call::Call;
use crate::trial::plan::{each_type, Plan};
use crate::trial::probe::{exchange_in_step, take_plan, Outcome};
use crate::trial::rig::Rig;
use crate::trial::samples::tolerant;
use crate::trial::states::{counting_state, failing_state, old_of, plain_state};
use crate::trial::states::{DISABLED, KIND, LENGTH, OLD_KIND, OLD_LENGTH};

const BAD: u64 = 1;
const NOT_DISABLED: u64 = 6;
const CUT: u64 = 11;

pub fn run(rig: &mut Rig) -> Outcome {
    for tolerance in TOLERANCES {
        for plan in each_type(|length| tolerant(length, tolerance)) {
            take_plan(rig, &plan);
            rig.origin = "directed: old records that are turned".to_string();
            good_records(rig, &plan)?;
            rig.origin = "directed: lengths of old and new records".to_string();
            every_length(rig, &plan)?;
            rig.origin = "directed: old records given to other calls".to_string();
            given_to_others(rig, &plan)?;
        }
    }
    rig.origin = "directed: every octet of an old record with every value".to_string();
    for plan in each_type(|length| tolerant(length, Some(1))) {
        every_octet(rig, &plan)?;
    }
    rig.origin = "directed: fields of an old record together".to_string();
    fields_together(rig, &tolerant(16, Some(3)))
}

/// Records of each link, with latches, dual transfer and counters at their bounds.
fn records(pdu_length: u8) -> Vec<Vec<u8>> {
    let mut records: Vec<Vec<u8>> = (0..4).map(|link| plain_state(pdu_length, link)).collect();
    records.push(counting_state(pdu_length, 15, 9));
    records.push(vec![KIND, 3, pdu_length, 1, 2, 1, 15, 15, 10, 12, 0]);
    records.push(vec![KIND, 2, pdu_length, 0, 255, 0, 0, 0, 12, 0, 0]);
    records.push(vec![KIND, 1, pdu_length, 0, 0, 0, 0, 0, 8, 12, 0]);
    records
}

/// A turning call with these octets for the new record.
fn expect_turn(rig: &mut Rig, old: &[u8], state: Vec<u8>, answer: u64) -> Outcome {
    rig.inputs.old = old.to_vec();
    rig.inputs.state = state;
    rig.expect(Call::Turn, answer)
}

/// Each becomes the record of now, whatever stood there, and is taken then.
fn good_records(rig: &mut Rig, plan: &Plan) -> Outcome {
    for record in records(plan.pdu_length) {
        let old = old_of(&record);
        for content in [0x00, OLD_KIND, KIND, 0xFF] {
            expect_turn(rig, &old, vec![content; LENGTH], 0)?;
            if rig.inputs.state != record {
                return Err(rig.difference("the record expected"));
            }
        }
        if record[1] == DISABLED {
            rig.expect(Call::Enable, 0)?;
        } else {
            exchange_in_step(rig, build::command(plan, 0x00))?;
            rig.expect(Call::Enable, NOT_DISABLED)?;
        }
    }
    Ok(())
}

/// Ten octets make eleven; every other pair is refused, as is a bad sheet before it.
fn every_length(rig: &mut Rig, plan: &Plan) -> Outcome {
    let sheet = plan.octets();
    let place = sheet.len() as u64 - 1;
    for cut in [false, true] {
        let end = sheet.len() - usize::from(cut);
        rig.inputs.sheet = sheet[..end].to_vec();
        for record in records(plan.pdu_length) {
            for old_length in [0, 1, 8, 9, 10, 11, 12, 20, 300] {
                for length in [0, 1, 9, 10, 11, 12, 20, 300] {
                    let mut old = old_of(&record);
                    old.resize(old_length, 0);
                    let good = (old_length, length) == (OLD_LENGTH, LENGTH);
                    let answer = match (cut, good) {
                        (true, _) => CUT | place << 32,
                        (false, true) => 0,
                        (false, false) => BAD,
                    };
                    expect_turn(rig, &old, distinct_octets(length), answer)?;
                }
            }
        }
    }
    rig.inputs.sheet = sheet;
    Ok(())
}

/// Old records to enable, exchange and replay, and records of now to the turning call.
fn given_to_others(rig: &mut Rig, plan: &Plan) -> Outcome {
    let length = usize::from(plan.pdu_length);
    rig.inputs.command = vec![0; length];
    rig.inputs.reply = vec![0xEE; length];
    rig.inputs.trace.clear();
    for record in records(plan.pdu_length) {
        let old = old_of(&record);
        let longer = [&old[..], &[0]].concat();
        for state in [&old, &longer, &record[..OLD_LENGTH].to_vec()] {
            for call in [Call::Enable, Call::Exchange, Call::Replay] {
                rig.inputs.state = state.clone();
                rig.expect(call, BAD)?;
            }
        }
        for bad in [&record[..], &record[..OLD_LENGTH], &longer] {
            expect_turn(rig, bad, vec![0xEE; LENGTH], BAD)?;
        }
    }
    // A count is nothing that an old record could have.
    let failing = failing_state(plan.pdu_length, 3, 9, plan.allowed());
    expect_turn(rig, &failing, vec![0xEE; LENGTH], BAD)
}

fn every_octet(rig: &mut Rig, plan: &Plan) -> Outcome {
    take_plan(rig, plan);
    for record in records(plan.pdu_length) {
        for at in 0..OLD_LENGTH {
            for octet in 0..=255 {
                let mut old = old_of(&record);
                old[at] = octet;
                rig.inputs.old = old;
                rig.inputs.state = vec![0xEE; LENGTH];
                rig.call(Call::Turn)?;
            }
        }
    }
    Ok(())
}

fn fields_together(rig: &mut Rig, plan: &Plan) -> Outcome {
    take_plan(rig, plan);
    let mut records = vec![vec![OLD_KIND]];
    for choices in fields(plan.pdu_length) {
        records = extend_each(&records, &choices);
    }
    for record in records {
        rig.inputs.old = record;
        rig.inputs.state = vec![0xEE; LENGTH];
        rig.call(Call::Turn)?;
    }
    Ok(())
}

#[cfg(test)]
mod tests {
    use super::*;
    use crate::trial::engines::PEER;

    #[test]
    fn records_are_turned_and_refused_for_each_cause() {
        let mut rig = Rig::new(PEER);
        let outcome = run(&mut rig);
        assert_eq!(outcome.err().map(|found| found.to_string()), None);
        let gaps = rig.tally.gaps();
        assert!(!gaps.iter().any(|gap| gap.contains("turn")));
    }
}
