//! Steps that directed and random trials share.

use super::build;
use super::call::Call;
use super::plan::Plan;
use super::report::Difference;
use super::rig::Rig;
use super::states::{old_of, plain_state, ASYNC, DISABLED, LENGTH, SYNC};
use crate::engine::memory_mode;

/// Nothing, or the first difference.
pub type Outcome = Result<(), Box<Difference>>;

/// The alarm of an exchange, 0 for none, and its place.
pub type Told = (u8, u64);

/// One exchange, with old octets in the reply.
pub fn exchange(rig: &mut Rig, command: &[u8]) -> Outcome {
    lend_command(rig, command);
    rig.call(Call::Exchange).map(|_| ())
}

fn lend_command(rig: &mut Rig, command: &[u8]) {
    rig.inputs.command = command.to_vec();
    rig.inputs.reply = command.iter().map(|&octet| old_octet(octet)).collect();
}

/// Neither zero nor the command's octet, so that it is seen if it stays.
fn old_octet(octet: u8) -> u8 {
    match !octet {
        0 => 0x5C,
        other => other,
    }
}

/// One exchange with the WDT that the state asks for.
pub fn exchange_in_step(rig: &mut Rig, mut command: Vec<u8>) -> Outcome {
    build::follow(rig.wire(), &mut command, &rig.inputs.state);
    exchange(rig, &command)
}

/// One exchange from a given state and a memory that tells its places apart.
pub fn exchange_from(rig: &mut Rig, state: &[u8], command: &[u8]) -> Outcome {
    rig.inputs.state = state.to_vec();
    rig.inputs.memory = build::distinct_octets(rig.inputs.memory.len());
    exchange(rig, command)
}

/// The same, and the reply, state and memory that it leaves.
pub fn left_from(
    rig: &mut Rig,
    state: &[u8],
    command: &[u8],
) -> Result<[Vec<u8>; 3], Box<Difference>> {
    exchange_from(rig, state, command)?;
    let inputs = &rig.inputs;
    Ok([
        rig.reply().to_vec(),
        inputs.state.clone(),
        inputs.memory.clone(),
    ])
}

/// The same, and both engines have to tell this alarm and place.
pub fn expect_told(rig: &mut Rig, state: &[u8], command: &[u8], told: Told) -> Outcome {
    rig.inputs.state = state.to_vec();
    rig.inputs.memory = build::distinct_octets(rig.inputs.memory.len());
    lend_command(rig, command);
    rig.expect(Call::Exchange, told.1 << 32)?;
    if rig.alarm() == told.0 {
        return Ok(());
    }
    Err(unexpected(rig, state, "the alarm expected"))
}

/// The same with the WDT that the state asks for.
pub fn expect_told_in_step(rig: &mut Rig, state: &[u8], command: &[u8], told: Told) -> Outcome {
    let mut command = command.to_vec();
    build::follow(rig.wire(), &mut command, state);
    expect_told(rig, state, &command, told)
}

/// The report of an exchange from this state on which both engines agreed against the rules.
pub fn unexpected(rig: &mut Rig, state: &[u8], what: &str) -> Box<Difference> {
    rig.inputs.state = state.to_vec();
    rig.inputs.memory = build::distinct_octets(rig.inputs.memory.len());
    rig.difference(what)
}

/// Takes a good sheet with a memory that tells its places apart.
pub fn take_plan(rig: &mut Rig, plan: &Plan) {
    rig.inputs.sheet = plan.octets();
    rig.inputs.memory = build::distinct_octets(plan.memory_length());
}

/// Judges a sheet by every call, and uses each record of it if it is good.
pub fn judge_sheet(rig: &mut Rig, sheet: &[u8]) -> Outcome {
    judge_sheet_briefly(rig, sheet)?;
    match Plan::read(sheet) {
        Some(plan) => use_plan(rig, &plan),
        None => Ok(()),
    }
}

/// Judges a sheet by every call, with one exchange if it is good.
pub fn judge_sheet_briefly(rig: &mut Rig, sheet: &[u8]) -> Outcome {
    let pdu_length = sheet.get(1).copied().unwrap_or(16);
    rig.inputs.sheet = sheet.to_vec();
    rig.call(Call::Sheet)?;
    let memory_length = (rig.call(Call::Lengths)? >> 32) as usize;
    rig.inputs.state = vec![0xEE; LENGTH];
    rig.call(Call::Reset)?;
    rig.inputs.state = vec![0xEE; LENGTH];
    rig.inputs.old = old_of(&plain_state(pdu_length, ASYNC));
    rig.call(Call::Turn)?;
    rig.inputs.state = plain_state(pdu_length, DISABLED);
    rig.call(Call::Enable)?;
    rig.inputs.memory = build::distinct_octets(memory_length);
    rig.inputs.command = vec![0; usize::from(pdu_length)];
    rig.inputs.reply = vec![0xEE; usize::from(pdu_length)];
    rig.call(Call::Exchange)?;
    rig.inputs.trace.clear();
    rig.call(Call::Replay)?;
    Ok(())
}

/// Reaches each region, parameter and ID item in both connected links.
pub fn use_plan(rig: &mut Rig, plan: &Plan) -> Outcome {
    for link in [ASYNC, SYNC] {
        take_plan(rig, plan);
        rig.inputs.state = plain_state(plan.pdu_length, link);
        // All reads come first, while the memory still tells its places apart.
        use_memory(rig, plan, 0x1D)?;
        use_parameters(rig, plan, 0x01)?;
        use_items(rig, plan)?;
        use_memory(rig, plan, 0x1E)?;
        use_parameters(rig, plan, 0x02)?;
    }
    Ok(())
}

fn use_memory(rig: &mut Rig, plan: &Plan, code: u8) -> Outcome {
    for region in &plan.regions {
        let (start, end) = (region.start, region.end());
        for address in [start.wrapping_sub(1), start, end - 1, end] {
            let command = build::memory(plan, code, memory_mode::octet(1), 1, address);
            exchange_in_step(rig, command)?;
        }
    }
    Ok(())
}

fn use_parameters(rig: &mut Rig, plan: &Plan, code: u8) -> Outcome {
    for parameter in &plan.parameters {
        let command = build::parameter(plan, code, parameter.number, parameter.size);
        exchange_in_step(rig, command)?;
    }
    Ok(())
}

fn use_items(rig: &mut Rig, plan: &Plan) -> Outcome {
    let carried = usize::from(plan.pdu_length) - 8;
    for item in &plan.items {
        let size = item.octets.len().min(carried) as u16;
        exchange_in_step(rig, build::identity(plan, item.code, 0, size))?;
        let last = item.octets.len() as u8 - 1;
        exchange_in_step(rig, build::identity(plan, item.code, last, 1))?;
    }
    Ok(())
}
