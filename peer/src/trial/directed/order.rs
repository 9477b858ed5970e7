//! Request 13: a reserved octet beside each other fault of each command. Watchdog,
//! code, link and data come before it, and rights behind it.

use super::wrong::{cases, in_every_link, plan, Case};
use crate::trial::named::reserved;
use crate::trial::plan::{each_type, Plan};
use crate::trial::probe::{take_plan, Outcome, Told};
use crate::trial::rig::Rig;

const ALARM_DATA: u8 = 9;

pub fn run(rig: &mut Rig) -> Outcome {
    rig.origin = "directed: a reserved octet beside each other fault".to_string();
    for tolerance in [None, Some(1)] {
        for rights in [7, 0] {
            let with_rights = |length| Plan {
                tolerance,
                ..plan(length, rights).in_release_2()
            };
            for plan in each_type(with_rights) {
                take_plan(rig, &plan);
                for case in cases(&plan, rights) {
                    beside_each(rig, &plan, &case)?;
                }
            }
        }
    }
    Ok(())
}

/// No field wrong, each one, and all of them.
fn beside_each(rig: &mut Rig, plan: &Plan, case: &Case) -> Outcome {
    let octets = reserved(plan.wire, &case.command);
    beside(rig, plan, &case.command, case.told, &octets)?;
    let mut all = case.command.clone();
    for wrong in &case.wrong {
        let place = wrong.at..wrong.at + wrong.octets.len();
        let mut command = case.command.clone();
        command[place.clone()].copy_from_slice(&wrong.octets);
        all[place].copy_from_slice(&wrong.octets);
        beside(rig, plan, &command, wrong.told, &octets)?;
    }
    match case.wrong.first() {
        Some(first) => beside(rig, plan, &all, first.told, &octets),
        None => Ok(()),
    }
}

/// None and each of the reserved octets set, and all at once.
fn beside(rig: &mut Rig, plan: &Plan, command: &[u8], told: Told, octets: &[usize]) -> Outcome {
    in_every_link(rig, plan, command, told)?;
    let behind = |at: usize| match told.0 {
        ALARM_DATA => told,
        _ => (ALARM_DATA, at as u64),
    };
    let mut all = command.to_vec();
    for &at in octets {
        let mut changed = command.to_vec();
        changed[at] = 0x08;
        all[at] = 0x08;
        in_every_link(rig, plan, &changed, behind(at))?;
    }
    in_every_link(rig, plan, &all, behind(octets[0]))
}

#[cfg(test)]
mod tests {
    use super::*;
    use crate::trial::engines::PEER;

    #[test]
    fn every_answer_is_the_one_expected() {
        let mut rig = Rig::new(PEER);
        let outcome = run(&mut rig);
        assert_eq!(outcome.err().map(|found| found.to_string()), None);
        let gaps = rig.tally.gaps();
        assert!(!gaps
            .iter()
            .any(|gap| gap.contains("beside a reserved octet") && gap.contains("refused")));
        assert!(!gaps.iter().any(|gap| gap.contains("in release 2")));
    }
}
