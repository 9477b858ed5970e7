//! Request 7: what a command of the short type does not name changes nothing,
//! its octets 1 to 3 and the octet of the other type's profile among them.

use super::octets::{accepted, first_state};
use crate::trial::build;
use crate::trial::plan::Plan;
use crate::trial::probe::{left_from, take_plan, unexpected, Outcome};
use crate::trial::rig::Rig;
use crate::trial::samples::both_ends;
use crate::trial::states::{counting_state, DISCONNECTED, LINK_AT};

/// Octets that would be another mode, size, profile, identity or WDT.
const NOISE: [u8; 8] = [0x00, 0x01, 0x02, 0x40, 0x80, 0xC0, 0x44, 0xFF];

pub fn run(rig: &mut Rig) -> Outcome {
    rig.origin = "directed: reserves of the short type".to_string();
    let plan = both_ends(16).in_short();
    take_plan(rig, &plan);
    for command in accepted(&plan) {
        let first = first_state(&plan, command[0]);
        every_reserve(rig, &plan, &first, &command)?;
        if first[LINK_AT] != DISCONNECTED {
            every_reserve(rig, &plan, &counting_state(16, 3, 9), &command)?;
        }
    }
    Ok(())
}

/// Octets behind the three reserves that a command names: its fields, and data that it writes.
fn named(command: &[u8]) -> usize {
    match command[0] {
        0x01 | 0x03 | 0x0E => 3,
        0x02 => 3 + usize::from(command[6]),
        0x05 | 0x06 => 1,
        _ => 0,
    }
}

/// Each reserve alone with each noise leaves what was left before.
fn every_reserve(rig: &mut Rig, plan: &Plan, state: &[u8], command: &[u8]) -> Outcome {
    let mut command = command.to_vec();
    build::follow(plan.wire, &mut command, state);
    let expected = left_from(rig, state, &command)?;
    let fields = 4..4 + named(&command);
    for at in (1..plan.wire.wdt).filter(|at| !fields.contains(at)) {
        for noise in NOISE {
            let mut changed = command.clone();
            changed[at] = noise;
            if left_from(rig, state, &changed)? != expected {
                return Err(unexpected(rig, state, "the reserve ignored"));
            }
        }
    }
    Ok(())
}

#[cfg(test)]
mod tests {
    use super::*;
    use crate::trial::engines::PEER;

    #[test]
    fn every_reserve_is_ignored() {
        let outcome = run(&mut Rig::new(PEER));
        assert_eq!(outcome.err().map(|found| found.to_string()), None);
    }
}
