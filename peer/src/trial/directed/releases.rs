//! Request 13: the record of a release with every value, in every place, twice,
//! beside a tolerance, and cut.

use super::tolerances::{body, expect_sheet, packed};
use crate::trial::plan::{item, item_record, parameter, parameter_record, region, region_record};
use crate::trial::plan::{release_record, tolerance_record, Plan};
use crate::trial::probe::{judge_sheet, Outcome};
use crate::trial::rig::Rig;
use crate::trial::samples::{both_ends, largest, sheet_p, tolerant, Spans};

const CUT: u64 = 11;
const UNKNOWN: u64 = 12;
const PLACE: u64 = 13;
const RANGE: u64 = 14;
/// The good values, those beside them, and the last.
const VALUES: [u8; 5] = [0, 1, 2, 3, 255];

pub fn run(rig: &mut Rig) -> Outcome {
    rig.origin = "directed: releases, good and bad, in every place".to_string();
    for plan in plans() {
        values(rig, &plan)?;
        places(rig, &plan)?;
        behind(rig, &plan)?;
        cuts(rig, &plan)?;
    }
    Ok(())
}

/// All that a good sheet has, used under each release.
pub fn use_good(rig: &mut Rig) -> Outcome {
    for plan in plans() {
        for release in [Some(1), Some(2)] {
            let plan = Plan {
                release,
                ..plan.clone()
            };
            judge_sheet(rig, &plan.octets())?;
        }
    }
    Ok(())
}

/// Sheets without the record, of both types: of all kinds, of some, of none, and as large as can be.
fn plans() -> Vec<Plan> {
    let mut items_alone = Plan::bare(8);
    items_alone.items = vec![item(6, &[7, 2]), item(7, &[0])];
    vec![
        both_ends(16),
        tolerant(32, Some(3)),
        sheet_p(),
        Plan::bare(48),
        items_alone,
        largest(64, Spans::Crossing),
        both_ends(16).in_short(),
        tolerant(16, Some(0)).in_short(),
        Plan::bare(16).in_short(),
    ]
}

fn good(release: u8) -> bool {
    release == 1 || release == 2
}

/// The fault of a record out of range at this place, or what is told of one in range.
fn in_range(release: u8, start: usize, answer: u64) -> u64 {
    if good(release) {
        answer
    } else {
        packed(RANGE, start)
    }
}

fn values(rig: &mut Rig, plan: &Plan) -> Outcome {
    let start = body(plan).concat().len();
    for value in 0..=255 {
        let sheet = [body(plan), vec![release_record(value), vec![0]]].concat();
        expect_sheet(rig, &sheet, in_range(value, start, 0))?;
    }
    Ok(())
}

/// Before each record, the first and the end among them, and behind the end.
fn places(rig: &mut Rig, plan: &Plan) -> Outcome {
    let records = plan.records();
    for at in 0..=records.len() {
        let start = records[..at].concat().len();
        for value in VALUES {
            let mut changed = records.clone();
            changed.insert(at, release_record(value));
            let answer = if at == 0 || at == records.len() {
                packed(PLACE, start)
            } else if at + 1 == records.len() {
                in_range(value, start, 0)
            } else {
                in_range(value, start, packed(PLACE, start + 2))
            };
            expect_sheet(rig, &changed, answer)?;
        }
    }
    Ok(())
}

/// One more record of each kind, which is good in itself, behind a good release and a bad one.
fn behind(rig: &mut Rig, plan: &Plan) -> Outcome {
    let mut more = vec![
        vec![1, plan.pdu_length, plan.version, plan.profile],
        vec![5, 16, plan.version, plan.profile],
        region_record(&region(0xFFFF_FFFF, 1, 7)),
        parameter_record(&parameter(0xFFFF, 0x1000, 1)),
        item_record(&item(0xFF, &[1])),
        vec![8, 1],
        vec![255],
    ];
    more.extend([0, 3, 4].map(tolerance_record));
    more.extend(VALUES.map(release_record));
    let start = body(plan).concat().len();
    for value in VALUES {
        for record in &more {
            let number = if record[0] > 7 { UNKNOWN } else { PLACE };
            let answer = in_range(value, start, packed(number, start + 2));
            let records = [body(plan), vec![release_record(value), record.clone()]].concat();
            expect_sheet(rig, &records, answer)?;
            // With an end, and cut behind its kind: the place comes before the body.
            expect_sheet(rig, &[records.clone(), vec![vec![0]]].concat(), answer)?;
            let mut cut = records;
            if let Some(last) = cut.last_mut() {
                last.truncate(1);
            }
            expect_sheet(rig, &cut, answer)?;
        }
    }
    Ok(())
}

/// Without its body, without an end, and out of place without its body.
fn cuts(rig: &mut Rig, plan: &Plan) -> Outcome {
    let start = body(plan).concat().len();
    let cut = [body(plan), vec![vec![7]]].concat();
    expect_sheet(rig, &cut, packed(CUT, start))?;
    for value in VALUES {
        let open = [body(plan), vec![release_record(value)]].concat();
        expect_sheet(rig, &open, in_range(value, start, packed(CUT, start + 2)))?;
        expect_sheet(rig, &[release_record(value)], packed(PLACE, 0))?;
    }
    expect_sheet(rig, &[vec![7]], packed(PLACE, 0))?;
    let ended = [plan.records(), vec![vec![7]]].concat();
    expect_sheet(rig, &ended, packed(PLACE, start + 1))
}

#[cfg(test)]
mod tests {
    use super::*;
    use crate::trial::engines::PEER;

    #[test]
    fn every_answer_is_the_one_expected_and_every_fault_is_told() {
        let mut rig = Rig::new(PEER);
        let outcome = run(&mut rig);
        assert_eq!(outcome.err().map(|found| found.to_string()), None);
        let gaps = rig.tally.gaps().into_iter();
        let sheets = gaps.filter(|gap| gap.starts_with("a release") || gap.contains("a release "));
        assert_eq!(sheets.count(), 0);
    }
}
