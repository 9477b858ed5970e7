//! Request 13: every octet of every command set in turn, alone and with all that
//! is reserved behind it, under each release and without the record.

use super::releases::use_good;
use crate::engine::memory_mode;
use crate::trial::build;
use crate::trial::named::{data, fields, hush, named_bits};
use crate::trial::plan::{each_type, item, parameter, region, Plan};
use crate::trial::probe::{exchange_from, expect_told, take_plan, Outcome, Told};
use crate::trial::rig::Rig;
use crate::trial::states::{counting_state, plain_state, ASYNC, DISCONNECTED};

const RELEASES: [Option<u8>; 3] = [None, Some(1), Some(2)];
const ACCEPTED: Told = (0, 0);
const START: u64 = 0x100;
/// Single bits at both ends and in the middle, and all of them.
const VALUES: [u8; 4] = [0x01, 0x20, 0x80, 0xFF];

pub fn run(rig: &mut Rig) -> Outcome {
    rig.origin = "directed: every octet of a command under each release".to_string();
    use_good(rig)?;
    for release in RELEASES {
        for plan in each_type(|length| plan(length, release)) {
            take_plan(rig, &plan);
            for (command, told) in commands(&plan) {
                for state in states(&plan, command[0]) {
                    every_octet(rig, &plan, &state, &command, told)?;
                }
            }
        }
    }
    Ok(())
}

/// Parameters of the smallest and the largest size, one more, and some between.
fn plan(pdu_length: u8, release: Option<u8>) -> Plan {
    let carried = pdu_length - 8;
    let mut sizes = vec![1, 2, 7, 8, 9, 23, 24, 25, 55, 56, carried, carried + 1];
    sizes.retain(|size| (1..=56.min(carried + 1)).contains(size));
    sizes.sort_unstable();
    sizes.dedup();
    let parameters = sizes.into_iter().map(|size| {
        let number = 0x0100 + u16::from(size);
        parameter(number, START as u32, size)
    });
    Plan {
        regions: vec![region(START, 30, 7), region(START + 30, 30, 7)],
        parameters: parameters.collect(),
        items: vec![item(0x42, &build::distinct_octets(32))],
        release,
        ..Plan::bare(pdu_length)
    }
}

/// What is told of a size or count that has this room.
fn sized(octets: u8, room: u8) -> Told {
    if octets <= room {
        ACCEPTED
    } else {
        (9, 6)
    }
}

/// Each code, with its data at each bound and one past it, and what is told of it while nothing reserved is set.
fn commands(plan: &Plan) -> Vec<(Vec<u8>, Told)> {
    let carried = plan.pdu_length - 8;
    let no_room = if carried == 0 { (9, 0) } else { ACCEPTED };
    let mut commands = vec![
        (build::command(plan, 0x00), ACCEPTED),
        (build::alarm_mode(plan, 0x05, 0), no_room),
        (build::alarm_mode(plan, 0x06, 0), ACCEPTED),
        (build::command(plan, 0x0D), ACCEPTED),
        (build::connect(plan, 0, 1), ACCEPTED),
        (build::connect(plan, 6, 2), ACCEPTED),
        (build::command(plan, 0x0F), ACCEPTED),
        (build::command(plan, 0x77), (8, 0)),
    ];
    for parameter in &plan.parameters {
        let told = sized(parameter.size, carried);
        for code in [0x01, 0x02] {
            let command = build::parameter(plan, code, parameter.number, parameter.size);
            commands.push((command, told));
        }
    }
    for size in [1, carried.clamp(1, 32), carried + 1] {
        let command = build::identity(plan, 0x42, 0, u16::from(size));
        commands.push((command, sized(size, carried.min(32))));
    }
    commands.extend(memory_commands(plan));
    for (command, _) in &mut commands {
        hush(plan.wire, command);
    }
    commands
}

/// Where the type has them, with each element, one and as many as there is room for, one less and one more.
fn memory_commands(plan: &Plan) -> Vec<(Vec<u8>, Told)> {
    let mut commands = Vec::new();
    if !plan.wire.has_memory {
        return commands;
    }
    let room = plan.pdu_length.saturating_sub(12);
    for (element_code, element) in [(1, 1), (2, 2), (3, 4)] {
        let most = room / element;
        let mut counts = vec![1, most.max(2) - 1, most.max(1), most + 1];
        counts.dedup();
        for count in counts {
            for code in [0x1D, 0x1E] {
                let mode = memory_mode::octet(element_code);
                let command = build::memory(plan, code, mode, u16::from(count), START + 3);
                commands.push((command, sized(count * element, room)));
            }
        }
    }
    commands
}

/// Links 2 and 3, the latter in step; CONNECT is taken in link 1 alone, SYNC_SET in link 2.
fn states(plan: &Plan, code: u8) -> Vec<Vec<u8>> {
    let length = plan.pdu_length;
    match code {
        0x0E => vec![plain_state(length, DISCONNECTED)],
        0x0D => vec![plain_state(length, ASYNC)],
        _ => vec![plain_state(length, ASYNC), counting_state(length, 5, 11)],
    }
}

fn every_octet(rig: &mut Rig, plan: &Plan, state: &[u8], command: &[u8], told: Told) -> Outcome {
    let mut command = command.to_vec();
    build::follow(plan.wire, &mut command, state);
    expect_told(rig, state, &command, told)?;
    let bits = named_bits(plan.wire, &command);
    let known = told.0 != 8;
    let written = data(plan.wire, &command);
    for at in (1..command.len()).filter(|&at| at != plan.wire.wdt) {
        if known && fields(plan.wire, command[0]).contains(&at) {
            other_field(rig, state, &command, at)?;
        } else if known && written.contains(&at) {
            each_value(rig, state, &command, at, |_| told)?;
        } else {
            let asked = plan.asks_zeros() && told == ACCEPTED;
            let expected = |octet| match asked && octet & !bits[at] != 0 {
                true => (9, at as u64),
                false => told,
            };
            each_value(rig, state, &command, at, expected)?;
        }
    }
    Ok(())
}

/// Each value alone, every one in octets 2 and 3, and then with all set that is reserved behind.
fn each_value(
    rig: &mut Rig,
    state: &[u8],
    command: &[u8],
    at: usize,
    expected: impl Fn(u8) -> Told,
) -> Outcome {
    let values: Vec<u8> = match at {
        2 | 3 => (1..=255).collect(),
        _ => VALUES.to_vec(),
    };
    let bits = named_bits(rig.wire(), command);
    for value in values {
        let mut changed = command.to_vec();
        changed[at] = value;
        expect_told(rig, state, &changed, expected(value))?;
    }
    if bits[at] != 0xFF {
        let mut changed = command.to_vec();
        changed[at] = 0x10;
        for later in at + 1..command.len() {
            changed[later] |= !bits[later];
        }
        expect_told(rig, state, &changed, expected(0x10))?;
    }
    Ok(())
}

/// Another value of a field, with the head's last octet set and without.
fn other_field(rig: &mut Rig, state: &[u8], command: &[u8], at: usize) -> Outcome {
    for flip in VALUES {
        for control in [0, 1] {
            let mut changed = command.to_vec();
            changed[at] ^= flip;
            changed[3] = control;
            exchange_from(rig, state, &changed)?;
        }
    }
    Ok(())
}

#[cfg(test)]
mod tests {
    use super::*;
    use crate::trial::engines::PEER;

    #[test]
    fn every_answer_is_the_one_expected_and_every_reserved_octet_is_told() {
        let mut rig = Rig::new(PEER);
        let outcome = run(&mut rig);
        assert_eq!(outcome.err().map(|found| found.to_string()), None);
        let gaps = rig.tally.gaps().into_iter();
        let octets = ["for the reserved octet", "for the last octet"];
        let refused = gaps.filter(|gap| octets.iter().any(|octet| gap.contains(octet)));
        assert_eq!(refused.collect::<Vec<_>>(), Vec::<String>::new());
        for place in 2..64 {
            assert!(rig.tally.refused_at(0x00, 9, place) > 0, "octet {place}");
        }
    }
}
