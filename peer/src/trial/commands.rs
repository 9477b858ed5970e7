//! Random commands that are accepted often and fail just beside the rules.

use super::named::{hush, reserved};
use super::plan::Plan;
use super::random::Random;
use super::states::{asks_wdt, ASYNC, DISCONNECTED, SYNC};
use super::states::{FAILURES_AT, LAST_MN_AT, LINK_AT, RSN_AT};
use crate::engine::memory_mode;

/// The codes that are built.
pub const CODES: [u8; 11] = [
    0x00, 0x01, 0x02, 0x03, 0x05, 0x06, 0x0D, 0x0E, 0x0F, 0x1D, 0x1E,
];

/// What is asked for often while connected; the last four only where the type has them.
const USUAL: [u8; 13] = [
    0x00, 0x01, 0x01, 0x02, 0x02, 0x03, 0x03, 0x05, 0x06, 0x1D, 0x1D, 0x1E, 0x1E,
];

/// A command for this sheet in this state; reserved octets hold anything, but mostly zero under release 2.
pub fn random_command(random: &mut Random, plan: &Plan, state: &[u8]) -> Vec<u8> {
    let length = usize::from(plan.pdu_length);
    let mut command = vec![0; length];
    if random.chance(75) {
        random.fill(&mut command);
    }
    command[0] = code(random, plan, state[LINK_AT]);
    if !random.chance(3) {
        fill_body(random, plan, &mut command);
    }
    if plan.asks_zeros() {
        quieten(random, plan, &mut command);
    }
    command[plan.wire.wdt] = watchdog(random, state);
    command
}

/// Makes reserved octets zero in most commands, and in some then sets one of them again.
fn quieten(random: &mut Random, plan: &Plan, command: &mut [u8]) {
    if random.chance(5) {
        return;
    }
    hush(plan.wire, command);
    if random.chance(30) {
        let octets = reserved(plan.wire, command);
        // The first and the last are asked for more often than those between.
        let first = random.index(octets.len().min(4));
        let other = random.index(octets.len());
        let at = random.pick(&[first, first, other, octets.len() - 1]);
        let any = random.octet();
        command[octets[at]] = random.pick(&[1, 0x20, 0xFF, any]);
    }
}

fn code(random: &mut Random, plan: &Plan, link: u8) -> u8 {
    let draw = random.below(100);
    let usual = if plan.wire.has_memory { 13 } else { 9 };
    match link {
        _ if draw < 3 => random.octet(),
        _ if draw < 13 => random.pick(&CODES),
        DISCONNECTED if draw < 70 => 0x0E,
        DISCONNECTED => random.pick(&[0x00, 0x0F, 0x01, 0x0D, 0x1E]),
        ASYNC if draw < 17 => 0x0D,
        ASYNC | SYNC if draw < 19 => 0x0F,
        _ => random.pick(&USUAL[..usual]),
    }
}

/// Mostly the WDT that is asked for, else MN, SN or both are beside it; any where none is asked for.
fn watchdog(random: &mut Random, state: &[u8]) -> u8 {
    if !asks_wdt(state) {
        return random.octet();
    }
    let (last, rsn) = (state[LAST_MN_AT], state[RSN_AT]);
    let next = last.wrapping_add(1) & 15;
    // After one failure the next is likely, so that runs reach every bound.
    let draws = if state[FAILURES_AT] > 0 { 18 } else { 100 };
    let (mn, sn) = match random.below(draws) {
        0 => (last, rsn),
        1 => (next.wrapping_add(1), rsn),
        2 => (random.octet(), rsn),
        3 => (next, rsn.wrapping_add(1)),
        4 => (next, rsn.wrapping_sub(1)),
        5 => (next, random.pick(&[last, next])),
        6 => (next, random.octet()),
        7 => (last, rsn.wrapping_sub(1)),
        8 => (random.octet(), random.octet()),
        _ => (next, rsn),
    };
    sn << 4 | mn & 15
}

fn fill_body(random: &mut Random, plan: &Plan, command: &mut [u8]) {
    match command[0] {
        0x01 | 0x02 => fill_parameter(random, plan, command),
        0x03 => fill_identity(random, plan, command),
        0x05 | 0x06 => fill_alarm_mode(random, plan, command),
        0x0E => fill_connect(random, plan, command),
        0x1D | 0x1E => fill_memory(random, plan, command),
        _ => (),
    }
}

/// The value itself in most cases, else one beside it, or any.
fn near(random: &mut Random, value: u64) -> u64 {
    match random.below(100) {
        0..=89 => value,
        90..=92 => value.wrapping_add(1),
        93..=95 => value.wrapping_sub(1),
        96 => value ^ 0x100,
        97 => value ^ 0x80,
        _ => random.number(),
    }
}

/// A number in as many octets as the type's field for it has.
fn put_field(plan: &Plan, command: &mut [u8], at: usize, value: u64) {
    let octets = plan.wire.field_octets;
    command[at..at + octets].copy_from_slice(&value.to_le_bytes()[..octets]);
}

fn put_16(command: &mut [u8], at: usize, value: u64) {
    command[at..at + 2].copy_from_slice(&(value as u16).to_le_bytes());
}

fn fill_parameter(random: &mut Random, plan: &Plan, command: &mut [u8]) {
    if plan.parameters.is_empty() {
        return;
    }
    let parameter = random.pick(&plan.parameters);
    let number = near(random, u64::from(parameter.number));
    put_16(command, 4, number);
    command[6] = near(random, u64::from(parameter.size)) as u8;
}

fn fill_identity(random: &mut Random, plan: &Plan, command: &mut [u8]) {
    if plan.items.is_empty() {
        return;
    }
    let item = &plan.items[random.index(plan.items.len())];
    let length = item.octets.len() as u64;
    let carried = command.len() as u64 - 8;
    let offset = if random.chance(50) {
        0
    } else {
        random.below(length + 1)
    };
    let rest = length - offset;
    let size = match random.below(5) {
        0 => rest,
        1 => carried,
        2 => rest.min(carried),
        _ => 1 + random.below(rest.min(carried).max(1)),
    };
    command[4] = near(random, u64::from(item.code)) as u8;
    command[5] = near(random, offset) as u8;
    put_field(plan, command, 6, near(random, size));
}

fn fill_alarm_mode(random: &mut Random, plan: &Plan, command: &mut [u8]) {
    let mode = if random.chance(80) {
        0
    } else {
        random.pick(&[1, 0x80, 0x100, 0x8000, 0xFFFF])
    };
    put_field(plan, command, 4, mode);
}

fn fill_connect(random: &mut Random, plan: &Plan, command: &mut [u8]) {
    command[4] = near(random, u64::from(plan.version)) as u8;
    command[5] = match random.below(10) {
        0 => random.octet(),
        1 => random.pick(&[0, 2, 6]) ^ 1 << random.below(8),
        _ => random.pick(&[0x00, 0x02, 0x02, 0x06, 0x06]),
    };
    command[6] = random.pick(&[0, 1, 1, 2, 2, 3, 255]);
    if plan.wire.names_profile {
        command[7] = near(random, u64::from(plan.profile)) as u8;
    }
}

fn fill_memory(random: &mut Random, plan: &Plan, command: &mut [u8]) {
    let element_code = 1 + random.below(3) as u8;
    let element = 1 << (element_code - 1);
    let room = (command.len() as u64).saturating_sub(12);
    let count = match random.below(20) {
        0 => room / element,
        1 => room / element + 1,
        2 => 0,
        3 => random.pick(&[0x4000, 0x4001, 0x8000, 0x8001, 0x8002, 0xFFFF, 0x0101]),
        4..=9 => 1 + random.below(3),
        _ => 1 + random.below((room / element).max(1)),
    };
    command[5] = match random.below(18) {
        0 => random.octet(),
        1 => memory_mode::octet(element_code).rotate_left(4),
        2 => memory_mode::octet(random.pick(&[0, 4, 5, 15])),
        _ => memory_mode::octet(element_code),
    };
    put_16(command, 6, count);
    if command.len() >= 12 {
        let address = address(random, plan, count * element);
        command[8..12].copy_from_slice(&(address as u32).to_le_bytes());
    }
}

/// An address in a run of regions, at one of its edges, or at the address space's.
fn address(random: &mut Random, plan: &Plan, length: u64) -> u64 {
    let draw = random.below(100);
    if draw < 3 {
        return random.number();
    }
    if draw < 6 || plan.regions.is_empty() {
        return random.below(3).wrapping_sub(random.below(length + 2));
    }
    let region = random.pick(&plan.regions);
    let (run, run_length) = random.pick(&plan.runs());
    let inside = run + random.below(run_length.saturating_sub(length) + 1);
    match random.below(8) {
        0 => region.start.wrapping_sub(random.below(length + 2)),
        1 => region.end().wrapping_sub(random.below(length + 2)),
        2 => (run + run_length)
            .wrapping_sub(length)
            .wrapping_add(random.below(2)),
        3 => region.start + random.below(region.length),
        _ => inside,
    }
}

#[cfg(test)]
mod tests {
    use super::*;
    use crate::trial::named::first_set;
    use crate::trial::samples::sheet_p;
    use crate::trial::states::{counting_state, failing_state, plain_state};

    #[test]
    fn most_commands_stay_in_step_and_some_lose_the_cycle_by_each_cause() {
        let (mut random, plan) = (Random::new(1), sheet_p());
        let state = counting_state(16, 15, 6);
        let mut counts = [0; 4];
        for _ in 0..10_000 {
            let wdt = random_command(&mut random, &plan, &state)[1];
            let wrong = [wdt & 15 != 0, wdt >> 4 != 6].map(usize::from);
            counts[wrong[0] + 2 * wrong[1]] += 1;
        }
        assert!(counts[0] > 8800 && counts[1..].iter().all(|&lost| lost > 100));
    }

    #[test]
    fn after_a_failure_half_of_the_commands_fail() {
        let (mut random, plan) = (Random::new(1), sheet_p());
        let state = failing_state(16, 15, 6, 1);
        let failing = (0..10_000)
            .filter(|_| random_command(&mut random, &plan, &state)[1] != 0x60)
            .count();
        assert!((4000..6000).contains(&failing));
    }

    #[test]
    fn under_release_2_most_commands_have_no_reserved_octet_set_and_some_have_one() {
        for plan in [sheet_p(), sheet_p().in_short()] {
            let (mut random, plan) = (Random::new(1), plan.in_release_2());
            let state = plain_state(16, ASYNC);
            let mut counts = [0; 17];
            for _ in 0..10_000 {
                let command = random_command(&mut random, &plan, &state);
                counts[first_set(plan.wire, &command).unwrap_or(16)] += 1;
            }
            assert!((6500..8000).contains(&counts[16]));
            let octets = 2..if plan.wire.has_memory { 16 } else { 15 };
            assert!(counts[octets].iter().all(|&refused| refused > 20));
        }
    }

    #[test]
    fn both_control_octets_take_every_value() {
        let (mut random, plan) = (Random::new(1), sheet_p());
        let mut seen = [[false; 256]; 2];
        for _ in 0..10_000 {
            let command = random_command(&mut random, &plan, &plain_state(16, ASYNC));
            seen[0][usize::from(command[2])] = true;
            seen[1][usize::from(command[3])] = true;
        }
        assert_eq!(seen, [[true; 256]; 2]);
    }
}
