//! Request 9: the record of a tolerance with every value, in every place, twice and cut.

use crate::trial::call::Call;
use crate::trial::plan::{item, item_record, parameter, parameter_record, region, region_record};
use crate::trial::plan::{tolerance_record, Plan};
use crate::trial::probe::{judge_sheet, judge_sheet_briefly, Outcome};
use crate::trial::rig::Rig;
use crate::trial::samples::{both_ends, largest, sheet_p, Spans};

const CUT: u64 = 11;
const UNKNOWN: u64 = 12;
const PLACE: u64 = 13;
const RANGE: u64 = 14;
/// Good values, at the bound, one past it, and the last.
const VALUES: [u8; 5] = [0, 2, 3, 4, 255];

pub fn run(rig: &mut Rig) -> Outcome {
    for plan in plans() {
        rig.origin = "directed: every tolerance".to_string();
        values(rig, &plan)?;
        rig.origin = "directed: a tolerance in every place".to_string();
        places(rig, &plan)?;
        rig.origin = "directed: records behind a tolerance".to_string();
        behind(rig, &plan)?;
        rig.origin = "directed: tolerances that are cut".to_string();
        cuts(rig, &plan)?;
    }
    Ok(())
}

/// Sheets without the record: of all kinds, of some, of none, and as large as can be.
fn plans() -> Vec<Plan> {
    let mut items_alone = Plan::bare(8);
    items_alone.items = vec![item(6, &[6, 3]), item(7, &[0])];
    let mut full = largest(64, Spans::Crossing);
    full.tolerance = None;
    vec![
        both_ends(16),
        sheet_p(),
        Plan::bare(48),
        items_alone,
        full,
        both_ends(16).in_short(),
    ]
}

pub fn packed(number: u64, place: usize) -> u64 {
    number | (place as u64) << 32
}

/// The sheet has to be told this, and every call has to agree.
pub fn expect_sheet(rig: &mut Rig, records: &[Vec<u8>], answer: u64) -> Outcome {
    rig.inputs.sheet = records.concat();
    rig.expect(Call::Sheet, answer)?;
    judge_sheet_briefly(rig, &records.concat())
}

/// The records before the end.
pub fn body(plan: &Plan) -> Vec<Vec<u8>> {
    let mut records = plan.records();
    records.pop();
    records
}

fn values(rig: &mut Rig, plan: &Plan) -> Outcome {
    let start = body(plan).concat().len();
    for value in 0..=255 {
        let sheet = [body(plan), vec![tolerance_record(value), vec![0]]].concat();
        let answer = if value <= 3 { 0 } else { packed(RANGE, start) };
        expect_sheet(rig, &sheet, answer)?;
    }
    for value in 0..=3 {
        let plan = Plan {
            tolerance: Some(value),
            ..plan.clone()
        };
        judge_sheet(rig, &plan.octets())?;
    }
    Ok(())
}

/// Before each record, the first and the end among them, and behind the end.
fn places(rig: &mut Rig, plan: &Plan) -> Outcome {
    let records = plan.records();
    for at in 0..=records.len() {
        let start = records[..at].concat().len();
        for value in VALUES {
            let mut changed = records.clone();
            changed.insert(at, tolerance_record(value));
            let answer = if at == 0 || at == records.len() {
                packed(PLACE, start)
            } else if value > 3 {
                packed(RANGE, start)
            } else if at + 1 == records.len() {
                0
            } else {
                packed(PLACE, start + 2)
            };
            expect_sheet(rig, &changed, answer)?;
        }
    }
    Ok(())
}

/// One more record of each kind but a release, which is good in itself, behind a good tolerance and a bad one.
fn behind(rig: &mut Rig, plan: &Plan) -> Outcome {
    let more = [
        vec![1, plan.pdu_length, plan.version, plan.profile],
        vec![5, 16, plan.version, plan.profile],
        region_record(&region(0xFFFF_FFFF, 1, 7)),
        parameter_record(&parameter(0xFFFF, 0x1000, 1)),
        item_record(&item(0xFF, &[1])),
        tolerance_record(0),
        tolerance_record(3),
        tolerance_record(4),
        vec![8, 1],
        vec![9],
    ];
    let start = body(plan).concat().len();
    for value in VALUES {
        for record in &more {
            let number = if record[0] > 6 { UNKNOWN } else { PLACE };
            let answer = if value > 3 {
                packed(RANGE, start)
            } else {
                packed(number, start + 2)
            };
            let records = [body(plan), vec![tolerance_record(value), record.clone()]].concat();
            expect_sheet(rig, &records, answer)?;
            // With an end, and cut behind its kind: the place comes before the body.
            expect_sheet(rig, &[records.clone(), vec![vec![0]]].concat(), answer)?;
            let mut cut = records;
            if let Some(last) = cut.last_mut() {
                last.truncate(1);
            }
            expect_sheet(rig, &cut, answer)?;
        }
    }
    Ok(())
}

/// Without its body, without an end, and out of place without its body.
fn cuts(rig: &mut Rig, plan: &Plan) -> Outcome {
    let start = body(plan).concat().len();
    let cut = [body(plan), vec![vec![6]]].concat();
    expect_sheet(rig, &cut, packed(CUT, start))?;
    for value in VALUES {
        let ended = [body(plan), vec![tolerance_record(value)]].concat();
        let answer = if value > 3 {
            packed(RANGE, start)
        } else {
            packed(CUT, start + 2)
        };
        expect_sheet(rig, &ended, answer)?;
    }
    expect_sheet(rig, &[vec![6]], packed(PLACE, 0))?;
    expect_sheet(rig, &[vec![6, 1], vec![0]], packed(PLACE, 0))
}

#[cfg(test)]
mod tests {
    use super::*;
    use crate::trial::engines::PEER;

    #[test]
    fn every_answer_is_the_one_expected() {
        let outcome = run(&mut Rig::new(PEER));
        assert_eq!(outcome.err().map(|found| found.to_string()), None);
    }
}
