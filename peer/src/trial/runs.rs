//! Random sequences of calls on one sheet, each from its own random numbers.

use super::call::Call;
use super::commands::random_command;
use super::damage::damaged_sheet;
use super::layout::random_plan;
use super::pairs::compare_pair;
use super::plan::Plan;
use super::probe::{judge_sheet_briefly, Outcome};
use super::random::Random;
use super::recorder::Recorder;
use super::rig::Rig;
use super::states::{damaged_state, old_of, plain_state, random_state, state_past};
use super::states::{DISABLED, LENGTH, OLD_KIND};

/// Steps of one sequence.
pub const STEPS: u64 = 64;

/// One sequence: a sheet is taken, used for many exchanges, and damaged.
pub fn run_sequence(rig: &mut Rig, seed: u64, sequence: u64) -> Outcome {
    let mut random = Random::for_sequence(seed, sequence);
    let plan = random_plan(&mut random);
    rig.inputs.sheet = plan.octets();
    rig.inputs.memory = random.octets(plan.memory_length());
    rig.origin = format!("random: seed {seed}, sequence {sequence}, start");
    start_state(rig, &mut random, &plan)?;
    let mut recorder = Recorder::new(&rig.inputs.state, &rig.inputs.memory);
    let recording = random.chance(25);
    for step in 0..STEPS {
        rig.origin = format!("random: seed {seed}, sequence {sequence}, step {step}");
        if random.chance(4) {
            disturb(rig, &mut random, &plan)?;
        }
        let command = random_command(&mut random, &plan, &rig.inputs.state);
        if recording {
            recorder.record(&rig.inputs.sheet, &command);
        }
        rig.inputs.reply = random.octets(command.len());
        rig.inputs.command = command;
        rig.call(Call::Exchange)?;
    }
    rig.origin = format!("random: seed {seed}, sequence {sequence}, end");
    if recording {
        replay(rig, &mut random, &recorder)?;
    }
    for _ in 0..4 {
        let sheet = damaged_sheet(&mut random, &plan);
        judge_sheet_briefly(rig, &sheet)?;
    }
    compare_pair(rig, &mut random, &plan)
}

/// By reset and enable, by turning an old record, or any valid state at once.
fn start_state(rig: &mut Rig, random: &mut Random, plan: &Plan) -> Outcome {
    let state = random_state(random, plan);
    match random.below(4) {
        0 | 1 => rig.inputs.state = state,
        2 => {
            rig.inputs.old = old_of(&state);
            rig.inputs.state = random.octets(LENGTH);
            rig.call(Call::Turn)?;
        }
        _ => {
            rig.inputs.state = random.octets(LENGTH);
            rig.call(Call::Reset)?;
            rig.call(Call::Enable)?;
        }
    }
    Ok(())
}

/// A call beside the sequence, which goes on as if it had not been.
fn disturb(rig: &mut Rig, random: &mut Random, plan: &Plan) -> Outcome {
    let kept = rig.inputs.clone();
    rig.inputs.command = random_command(random, plan, &kept.state);
    rig.inputs.reply = random.octets(rig.inputs.command.len());
    let mut call = Call::Exchange;
    match random.below(10) {
        0 => call = Call::Sheet,
        1 => call = Call::Lengths,
        2 => {
            call = Call::Reset;
            if random.chance(50) {
                resize(&mut rig.inputs.state, random);
            }
        }
        3 => {
            call = Call::Enable;
            rig.inputs.state = damaged_state(random, &kept.state);
        }
        4 => rig.inputs.state = damaged_state(random, &kept.state),
        5 => disturb_disabled(rig, random, plan)?,
        6 => rig.inputs.state = state_past(random, plan),
        7 => disturb_with_old(rig, random, plan)?,
        8 => {
            call = Call::Turn;
            lend_old(rig, random, plan);
        }
        _ => resize_one(rig, random),
    }
    rig.call(call)?;
    rig.inputs = kept;
    Ok(())
}

/// While Disabled the refusals before it come first, and nothing is replayed.
fn disturb_disabled(rig: &mut Rig, random: &mut Random, plan: &Plan) -> Outcome {
    rig.inputs.state = plain_state(plan.pdu_length, DISABLED);
    if random.chance(50) {
        resize_one(rig, random);
    }
    rig.call(Call::Exchange)?;
    let length = random.index(3);
    rig.inputs.trace = random.octets(length);
    rig.call(Call::Replay)?;
    Ok(())
}

/// Nothing but the turning call takes an old record.
fn disturb_with_old(rig: &mut Rig, random: &mut Random, plan: &Plan) -> Outcome {
    rig.inputs.state = old_of(&plain_state(plan.pdu_length, DISABLED));
    rig.call(Call::Enable)?;
    rig.inputs.state = old_of(&random_state(random, plan));
    if random.chance(30) {
        rig.inputs.state.push(0);
    }
    rig.inputs.trace.clear();
    rig.call(Call::Replay)?;
    Ok(())
}

/// An old record, good or spoiled, with octets of any content for the new one.
fn lend_old(rig: &mut Rig, random: &mut Random, plan: &Plan) {
    let mut old = old_of(&random_state(random, plan));
    if random.chance(15) {
        old = old_of(&plain_state(plan.pdu_length, DISABLED));
    }
    let mut state = random.octets(LENGTH);
    match random.below(7) {
        0 => old = damaged_state(random, &old),
        1 => old[0] = random.pick(&[OLD_KIND - 1, OLD_KIND + 1, 0, 0x21]),
        2 => old.resize(random.pick(&[0, 9, 11, 12, 20]), 0),
        3 => state.resize(random.pick(&[0, 9, 10, 12, 20]), 0xEE),
        4 => old = rig.inputs.state.clone(),
        _ => (),
    }
    rig.inputs.old = old;
    rig.inputs.state = state;
}

fn resize_one(rig: &mut Rig, random: &mut Random) {
    let inputs = &mut rig.inputs;
    let buffers = [
        &mut inputs.state,
        &mut inputs.memory,
        &mut inputs.command,
        &mut inputs.reply,
    ];
    let chosen = random.index(buffers.len());
    for (index, buffer) in buffers.into_iter().enumerate() {
        if index == chosen || random.chance(20) {
            resize(buffer, random);
        }
    }
}

fn resize(buffer: &mut Vec<u8>, random: &mut Random) {
    let length = buffer.len();
    let lengths = [
        0,
        length.saturating_sub(1),
        length + 1,
        length + 64,
        8,
        16,
        64,
    ];
    buffer.resize(random.pick(&lengths), 0xEE);
}

/// Replays what the sequence has exchanged, then with one octet changed, or cut.
fn replay(rig: &mut Rig, random: &mut Random, recorder: &Recorder) -> Outcome {
    recorder.lend_to(&mut rig.inputs);
    rig.call(Call::Replay)?;
    for _ in 0..4 {
        recorder.lend_to(&mut rig.inputs);
        let at = random.index(recorder.trace.len());
        if random.chance(20) {
            rig.inputs.trace.truncate(at);
        } else {
            rig.inputs.trace[at] ^= 1 << random.below(8);
        }
        rig.call(Call::Replay)?;
    }
    Ok(())
}

#[cfg(test)]
mod tests {
    use super::*;
    use crate::trial::engines::PEER;

    #[test]
    fn a_sequence_is_repeated_exactly() {
        let run = || {
            let mut rig = Rig::new(PEER);
            for sequence in 0..20 {
                run_sequence(&mut rig, 7, sequence).map_err(|found| found.to_string())?;
            }
            Ok::<_, String>(rig.tally.to_string())
        };
        assert_eq!(run(), run());
    }
}
