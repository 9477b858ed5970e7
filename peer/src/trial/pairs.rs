//! Random pairs of sheets, and the calls that list what changed between them (request 2).

use super::call::Call;
use super::damage::damaged_sheet;
use super::edits::{edit, mend};
use super::layout::random_plan;
use super::plan::Plan;
use super::probe::Outcome;
use super::random::Random;
use super::report::Difference;
use super::rig::Rig;

/// A list up to this length is cut at every one.
const SHORT_LIST: usize = 24;

/// This sheet and another one, either being the first.
pub fn compare_pair(rig: &mut Rig, random: &mut Random, plan: &Plan) -> Outcome {
    let mut pair = [plan.clone(), other_plan(random, plan)];
    if random.chance(50) {
        pair.swap(0, 1);
    }
    lend_pair(rig, random, &pair);
    lists_of_lengths(rig, random)
}

/// Equal, with one field changed, with records gone or come, changed all over, or another one altogether.
pub fn other_plan(random: &mut Random, plan: &Plan) -> Plan {
    let mut other = plan.clone();
    match random.below(10) {
        0 => (),
        1..=3 => edit(random, &mut other),
        4 | 5 => thin_out(random, &mut other),
        6..=8 => (0..2 + random.below(12)).for_each(|_| edit(random, &mut other)),
        _ => other = random_plan(random),
    }
    other
}

/// Leaves many records out, at times all of a kind.
fn thin_out(random: &mut Random, plan: &mut Plan) {
    let kept = random.pick(&[0, 20, 50, 90]);
    plan.regions.retain(|_| random.chance(kept));
    plan.parameters.retain(|_| random.chance(50));
    plan.items.retain(|_| random.chance(100 - kept));
    if random.chance(50) {
        plan.tolerance = None;
    }
    if random.chance(50) {
        plan.release = None;
    }
    mend(plan);
}

/// Mostly two good sheets; at times one has a fault, or both.
fn lend_pair(rig: &mut Rig, random: &mut Random, pair: &[Plan; 2]) {
    let faulty = random.pick(&[0, 0, 0, 0, 0, 1, 2, 2, 2, 3]);
    let mut sheet = |side: usize| {
        if faulty & 1 << side == 0 {
            pair[side].octets()
        } else {
            damaged_sheet(random, &pair[side])
        }
    };
    rig.inputs.sheet = sheet(0);
    rig.inputs.second = sheet(1);
}

/// Without a buffer, and then around the length that the list has; a short one at every length.
fn lists_of_lengths(rig: &mut Rig, random: &mut Random) -> Outcome {
    let length = needed(rig)?;
    let mut rooms = vec![length, length + 1 + random.index(40)];
    if length <= SHORT_LIST || random.chance(1) {
        rooms.extend(1..length);
    } else {
        rooms.extend([length - 1, random.index(length)]);
    }
    for room in rooms {
        list_in(rig, random.octets(room))?;
    }
    Ok(())
}

/// The length of the list, which a call without a buffer tells.
pub fn needed(rig: &mut Rig) -> Result<usize, Box<Difference>> {
    let answer = list_in(rig, Vec::new())?;
    Ok(match answer as u32 {
        28 => (answer >> 32) as usize,
        _ => 0,
    })
}

/// One call with a buffer of this content.
pub fn list_in(rig: &mut Rig, list: Vec<u8>) -> Result<u64, Box<Difference>> {
    rig.inputs.list = list;
    rig.call(Call::Difference)
}

#[cfg(test)]
mod tests {
    use super::*;
    use crate::engine;
    use crate::trial::engines::PEER;

    #[test]
    fn other_plans_are_good_sheets_and_mostly_share_records() {
        let (mut equal, mut shared) = (0, 0);
        for seed in 0..3000 {
            let mut random = Random::new(seed);
            let plan = random_plan(&mut random);
            let other = other_plan(&mut random, &plan);
            let octets = other.octets();
            assert_eq!(engine::sheet(&octets), 0, "seed {seed}");
            assert_eq!(Plan::read(&octets), Some(other.clone()), "seed {seed}");
            equal += u32::from(plan == other);
            let records = other.records();
            shared += u32::from(
                plan.records()
                    .iter()
                    .skip(1)
                    .any(|record| record[0] != 0 && records.contains(record)),
            );
        }
        assert!(
            equal > 200 && shared > 1500,
            "{equal} equal, {shared} share records"
        );
    }

    #[test]
    fn pairs_reach_every_entry_number_and_buffer() {
        let mut rig = Rig::new(PEER);
        for seed in 0..3000 {
            let mut random = Random::new(seed);
            let plan = random_plan(&mut random);
            let outcome = compare_pair(&mut rig, &mut random, &plan);
            assert_eq!(outcome.err().map(|found| found.to_string()), None);
        }
        let gaps = rig.tally.gaps().into_iter();
        let gaps = gaps.filter(|gap| gap.contains("ifference"));
        assert_eq!(gaps.collect::<Vec<_>>(), Vec::<String>::new());
    }
}
