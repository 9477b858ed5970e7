//! Request 7: the link record of the short type with every L, twice, beside the
//! other type's, cut, and behind other records.

use super::tolerances::{expect_sheet, packed};
use crate::trial::plan::Plan;
use crate::trial::probe::Outcome;
use crate::trial::rig::Rig;
use crate::trial::samples::{sheet_p, tolerant};
use crate::trial::wire::SHORT;

const CUT: u64 = 11;
const PLACE: u64 = 13;
const RANGE: u64 = 14;
/// Octets of a link record.
const LENGTH: usize = 4;
/// The good L, those beside it, and the enhanced type's.
const LENGTHS: [u8; 8] = [16, 15, 17, 8, 32, 48, 64, 0];

pub fn run(rig: &mut Rig) -> Outcome {
    for plan in plans() {
        rig.origin = "directed: every L of the short type".to_string();
        lengths(rig, &plan)?;
        rig.origin = "directed: link records of both types".to_string();
        beside(rig, &plan)?;
        rig.origin = "directed: a link record behind other records".to_string();
        behind(rig, &plan)?;
    }
    rig.origin = "directed: link records that are cut".to_string();
    cuts(rig)
}

/// Sheets of the short type: with records of all kinds, with some, and with none.
fn plans() -> [Plan; 3] {
    [
        tolerant(16, Some(1)).in_short(),
        sheet_p().in_short(),
        Plan::bare(16).in_short(),
    ]
}

fn link(kind: u8, length: u8) -> Vec<u8> {
    vec![kind, length, 3, 4]
}

/// Each L in place of the good one; version and profile may be anything.
fn lengths(rig: &mut Rig, plan: &Plan) -> Outcome {
    for octet in 0..=255 {
        let mut records = plan.records();
        records[0][1] = octet;
        let good = octet == 16;
        expect_sheet(rig, &records, if good { 0 } else { RANGE })?;
        records[0] = vec![SHORT.link_kind, 16, octet, !octet];
        expect_sheet(rig, &records, 0)?;
    }
    Ok(())
}

/// Before and behind the sheet's own record one of each type and L, whole and cut behind its kind.
fn beside(rig: &mut Rig, plan: &Plan) -> Outcome {
    for kind in [1, 5] {
        for length in LENGTHS {
            let mut records = plan.records();
            records.insert(1, link(kind, length));
            expect_sheet(rig, &records, packed(PLACE, LENGTH))?;
            records.swap(0, 1);
            let in_range = length == 16 || kind == 1 && [8, 32, 48, 64].contains(&length);
            let answer = if in_range {
                packed(PLACE, LENGTH)
            } else {
                RANGE
            };
            expect_sheet(rig, &records, answer)?;
        }
        for octets in 1..LENGTH {
            let first = plan.link_record();
            let cut = link(kind, 16)[..octets].to_vec();
            expect_sheet(rig, &[first, cut], packed(PLACE, LENGTH))?;
        }
    }
    Ok(())
}

/// One more record of either type at each place, the end's included, good, out of range and cut.
fn behind(rig: &mut Rig, plan: &Plan) -> Outcome {
    let records = plan.records();
    for at in 1..=records.len() {
        let start = records[..at].concat().len();
        for more in [link(5, 16), link(5, 32), link(1, 16), vec![5], vec![1]] {
            let mut changed = records.clone();
            changed.insert(at, more);
            expect_sheet(rig, &changed, packed(PLACE, start))?;
            changed.truncate(at + 1);
            expect_sheet(rig, &changed, packed(PLACE, start))?;
        }
    }
    // Without a link record before it, each record is out of place itself.
    for record in &records[1..] {
        let sheet = [record.clone(), plan.link_record(), vec![0]];
        expect_sheet(rig, &sheet, packed(PLACE, 0))?;
    }
    Ok(())
}

/// A cut is told before the range, and at the record's first octet.
fn cuts(rig: &mut Rig) -> Outcome {
    for kind in [1, 5] {
        for length in LENGTHS {
            for octets in 1..LENGTH {
                let cut = link(kind, length)[..octets].to_vec();
                expect_sheet(rig, &[cut], packed(CUT, 0))?;
            }
        }
        expect_sheet(rig, &[link(kind, 16)], packed(CUT, LENGTH))?;
    }
    expect_sheet(rig, &[link(5, 32)], RANGE)
}

#[cfg(test)]
mod tests {
    use super::*;
    use crate::trial::engines::PEER;

    #[test]
    fn every_answer_is_the_one_expected_and_every_fault_is_told() {
        let mut rig = Rig::new(PEER);
        let outcome = run(&mut rig);
        assert_eq!(outcome.err().map(|found| found.to_string()), None);
        assert!(!rig.tally.gaps().iter().any(|gap| gap.contains("kind 05")));
    }
}
