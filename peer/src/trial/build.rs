//! Commands and memories for directed trials.

use super::named::hush;
use super::plan::Plan;
use super::states::{asks_wdt, LAST_MN_AT, RSN_AT};
use super::wire::Wire;

/// A command of this code whose reserved octets all hold something, or zero under release 2.
pub fn command(plan: &Plan, code: u8) -> Vec<u8> {
    settled(plan, noisy(plan, code))
}

/// The command once its fields are set: release 2 refuses reserved octets that hold something.
fn settled(plan: &Plan, mut command: Vec<u8>) -> Vec<u8> {
    if plan.asks_zeros() {
        hush(plan.wire, &mut command);
    }
    command
}

fn noisy(plan: &Plan, code: u8) -> Vec<u8> {
    let length = usize::from(plan.pdu_length);
    let mut command: Vec<u8> = (0..length)
        .map(|at| 0xA1 ^ (at as u8).wrapping_mul(7))
        .collect();
    command[0] = code;
    command
}

pub fn connect(plan: &Plan, com_mod: u8, com_time: u8) -> Vec<u8> {
    let mut command = noisy(plan, 0x0E);
    command[4..7].copy_from_slice(&[plan.version, com_mod, com_time]);
    if plan.wire.names_profile {
        command[7] = plan.profile;
    }
    settled(plan, command)
}

pub fn parameter(plan: &Plan, code: u8, number: u16, size: u8) -> Vec<u8> {
    let mut command = noisy(plan, code);
    command[4..6].copy_from_slice(&number.to_le_bytes());
    command[6] = size;
    settled(plan, command)
}

pub fn identity(plan: &Plan, id_code: u8, offset: u8, size: u16) -> Vec<u8> {
    let mut command = noisy(plan, 0x03);
    command[4] = id_code;
    command[5] = offset;
    put_field(plan, &mut command[6..], size);
    settled(plan, command)
}

/// As many octets of the number as the type's field has; what is behind stays as it is.
fn put_field(plan: &Plan, octets: &mut [u8], number: u16) {
    let field = plan.wire.field_octets;
    octets[..field].copy_from_slice(&number.to_le_bytes()[..field]);
}

pub fn alarm_mode(plan: &Plan, code: u8, mode: u16) -> Vec<u8> {
    let mut command = noisy(plan, code);
    put_field(plan, &mut command[4..], mode);
    settled(plan, command)
}

/// At L 8 the address has no room and is left out.
pub fn memory(plan: &Plan, code: u8, mode: u8, count: u16, address: u64) -> Vec<u8> {
    let mut command = noisy(plan, code);
    command[5] = mode;
    command[6..8].copy_from_slice(&count.to_le_bytes());
    if command.len() >= 12 {
        command[8..12].copy_from_slice(&(address as u32).to_le_bytes());
    }
    settled(plan, command)
}

/// Sets the MN that follows and the SN that is the RSN, where the state asks for them.
pub fn follow(wire: &Wire, command: &mut [u8], state: &[u8]) {
    if asks_wdt(state) {
        command[wire.wdt] = state[RSN_AT] << 4 | state[LAST_MN_AT].wrapping_add(1) & 15;
    }
}

/// Octets that tell their places apart, also at distances of 256.
pub fn distinct_octets(length: usize) -> Vec<u8> {
    (0..length)
        .map(|at| ((at as u32).wrapping_mul(0x9E37_79B1) >> 23) as u8)
        .collect()
}

/// The same without a zero, for a buffer of which octets have to stay.
pub fn old_octets(length: usize) -> Vec<u8> {
    let octets = distinct_octets(length).into_iter();
    octets.map(|octet| octet | 0x80).collect()
}
