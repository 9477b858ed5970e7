//! Request 3: the first octet that lacks the right, at every place of a span,
//! and another one later.

use crate::engine::memory_mode;
use crate::engine::region::{READ, WRITE_ASYNC, WRITE_SYNC};
use crate::trial::build;
use crate::trial::plan::{each_type, parameter, region, Plan};
use crate::trial::probe::{expect_told_in_step, take_plan, Outcome, Told};
use crate::trial::rig::Rig;
use crate::trial::states::{counting_state, plain_state, ASYNC};

const ADDRESSES: u64 = 1 << 32;
const ALL: u8 = 7;
const ALARM_RIGHTS: u8 = 10;
const NUMBER: u16 = 0x0203;
const MOST_REGIONS: usize = 32;

/// At L 8 no span has room.
pub fn run(rig: &mut Rig) -> Outcome {
    rig.origin = "directed: the first octet without the right".to_string();
    for bare in &each_type(Plan::bare)[1..] {
        for octets in sizes(bare.pdu_length - 8) {
            spans(rig, bare, octets)?;
        }
        if !bare.wire.has_memory {
            continue;
        }
        for octets in sizes(bare.pdu_length - 12) {
            spans(rig, bare, octets)?;
        }
    }
    Ok(())
}

/// The smallest spans and the largest.
fn sizes(most: u8) -> Vec<usize> {
    let mut sizes = [1, 2, 3, most - 1, most].map(usize::from).to_vec();
    sizes.dedup();
    sizes
}

/// Each octet of the span the first that lacks a right, and none, one or all behind it lacking it too.
fn spans(rig: &mut Rig, bare: &Plan, octets: usize) -> Outcome {
    for right in [READ, WRITE_ASYNC, WRITE_SYNC] {
        for first in 0..octets {
            let mut rights = vec![ALL; octets];
            rights[first] = ALL - right;
            every_layout(rig, bare, &rights)?;
            for second in [first + 1, first + 2, octets - 1] {
                if first < second && second < octets {
                    let mut rights = rights.clone();
                    rights[second] = 0;
                    every_layout(rig, bare, &rights)?;
                }
            }
            rights[first..].fill(ALL - right);
            every_layout(rig, bare, &rights)?;
        }
    }
    Ok(())
}

/// As few regions as can be and as many, with an octet before and behind the
/// span, anywhere and up to the last address.
fn every_layout(rig: &mut Rig, bare: &Plan, rights: &[u8]) -> Outcome {
    let octets = rights.len() as u64;
    let around = [&rights[..1], rights, &rights[rights.len() - 1..]].concat();
    for start in [0x1000, ADDRESSES - octets - 1] {
        for merged in [true, false] {
            let mut plan = bare.clone();
            for (at, &octet) in around.iter().enumerate() {
                let left = around.len() - at;
                let full = plan.regions.len() + left > MOST_REGIONS;
                match plan.regions.last_mut() {
                    Some(last) if last.rights == octet && (merged || full) => last.length += 1,
                    _ => plan.regions.push(region(start - 1 + at as u64, 1, octet)),
                }
            }
            plan.parameters = vec![parameter(NUMBER, start as u32, octets as u8)];
            take_plan(rig, &plan);
            every_use(rig, &plan, start, rights)?;
        }
    }
    Ok(())
}

/// The span read and written in both links, as parameter and as memory where L has room.
fn every_use(rig: &mut Rig, plan: &Plan, start: u64, rights: &[u8]) -> Outcome {
    let asynchronous = plain_state(plan.pdu_length, ASYNC);
    let synchronous = counting_state(plan.pdu_length, 7, 12);
    for (state, write) in [(asynchronous, WRITE_ASYNC), (synchronous, WRITE_SYNC)] {
        for (command, right) in commands(plan, start, rights.len(), write) {
            let told = expected(rights, right);
            expect_told_in_step(rig, &state, &command, told)?;
        }
    }
    Ok(())
}

/// The first octet without the right, looked for octet by octet.
fn expected(rights: &[u8], right: u8) -> Told {
    match rights.iter().position(|octet| octet & right == 0) {
        Some(before) => (ALARM_RIGHTS, before as u64),
        None => (0, 0),
    }
}

/// Commands over the span, in elements of each width, with the right that each needs.
fn commands(plan: &Plan, start: u64, octets: usize, write: u8) -> Vec<(Vec<u8>, u8)> {
    let mut commands = Vec::new();
    for (code, right) in [(0x01, READ), (0x02, write)] {
        let command = build::parameter(plan, code, NUMBER, octets as u8);
        commands.push((command, right));
    }
    let room = if plan.wire.has_memory {
        usize::from(plan.pdu_length) - 12
    } else {
        0
    };
    for (element_code, element) in [(1, 1), (2, 2), (3, 4)] {
        if octets <= room && octets % element == 0 {
            for (code, right) in [(0x1D, READ), (0x1E, write)] {
                let (mode, count) = (memory_mode::octet(element_code), octets / element);
                let command = build::memory(plan, code, mode, count as u16, start);
                commands.push((command, right));
            }
        }
    }
    commands
}

#[cfg(test)]
mod tests {
    use super::*;
    use crate::trial::engines::PEER;

    #[test]
    fn every_octet_of_the_longest_span_is_the_first_without_the_right() {
        let mut rig = Rig::new(PEER);
        assert!(run(&mut rig).is_ok());
        for (codes, most) in [([0x01, 0x02], 56), ([0x1D, 0x1E], 52)] {
            for code in codes {
                let reached = |place| rig.tally.refused_at(code, ALARM_RIGHTS, place) > 0;
                assert!((0..most).all(reached) && !reached(most));
            }
        }
    }
}
