//! Request 9: failures in a row at each bound and one past it, by MN and by SN,
//! and exchanges that pass between them.

use crate::engine::memory_mode;
use crate::trial::build;
use crate::trial::call::Call;
use crate::trial::plan::{each_type, Plan};
use crate::trial::probe::{exchange, exchange_in_step, take_plan, unexpected, Outcome};
use crate::trial::rig::Rig;
use crate::trial::samples::tolerant;
use crate::trial::states::{failing_state, plain_state, ASYNC, DISCONNECTED, KIND};
use crate::trial::states::{FAILURES_AT, LAST_MN_AT, LINK_AT, RSN_AT, SYNC};

pub const TOLERANCES: [Option<u8>; 5] = [None, Some(0), Some(1), Some(2), Some(3)];
/// What is added to the MN and to the SN that are asked for.
pub type Wrong = (u8, u8);
const WRONG: [Wrong; 5] = [(1, 0), (15, 0), (0, 1), (0, 15), (5, 9)];
const BAD_STATE: u64 = 1;

pub fn run(rig: &mut Rig) -> Outcome {
    for tolerance in TOLERANCES {
        for plan in each_type(|length| tolerant(length, tolerance)) {
            take_plan(rig, &plan);
            rig.origin = "directed: failures at and past what is allowed".to_string();
            every_count(rig, &plan)?;
            rig.origin = "directed: runs of failures".to_string();
            runs(rig, &plan)?;
            rig.origin = "directed: exchanges that pass between failures".to_string();
            passing(rig, &plan)?;
        }
    }
    rig.origin = "directed: every code in a failure that is allowed".to_string();
    for plan in each_type(|length| tolerant(length, Some(2))) {
        every_code(rig, &plan)?;
    }
    rig.origin = "directed: every WDT beside a count".to_string();
    every_wdt(rig, &tolerant(8, Some(3)))
}

/// The WDT that is asked for in this state, made wrong.
pub fn wrong_wdt(state: &[u8], wrong: Wrong) -> u8 {
    let mn = state[LAST_MN_AT] + 1 + wrong.0;
    (state[RSN_AT] + wrong.1) << 4 | mn & 15
}

/// State and reply that a command which fails check 1 has to leave.
fn left(plan: &Plan, state: &[u8], command: &[u8]) -> (Vec<u8>, Vec<u8>) {
    let wdt = plan.wire.wdt;
    let mn = command[wdt] & 15;
    let (mut after, mut reply) = (state.to_vec(), vec![0; command.len()]);
    let mut status = 5;
    if state[FAILURES_AT] < plan.allowed() {
        after[LAST_MN_AT] = mn;
        after[RSN_AT] = (state[RSN_AT] + 1) & 15;
        after[FAILURES_AT] += 1;
        reply[wdt] = after[RSN_AT] << 4 | mn;
        status = 6 | u8::from(state[8] != 0 || state[9] != 0);
    } else {
        let (length, com_time) = (state[2], state[4]);
        after = vec![KIND, ASYNC, length, 0, com_time, 0, 0, 0, state[8], 12, 0];
    }
    reply[0] = command[0];
    reply[2] = status | command[2] & plan.wire.identity;
    reply[3] = after[9] << 4;
    (after, reply)
}

/// One exchange that has to fail check 1; one whose count is past the sheet's is refused.
fn expect_failure(rig: &mut Rig, plan: &Plan, command: &[u8], wrong: Wrong) -> Outcome {
    let (state, memory) = (rig.inputs.state.clone(), rig.inputs.memory.clone());
    let mut command = command.to_vec();
    command[plan.wire.wdt] = wrong_wdt(&state, wrong);
    let old = vec![0x5C; command.len()];
    rig.inputs.reply = old.clone();
    let past = state[FAILURES_AT] > plan.allowed();
    let (after, reply) = if past {
        (state.clone(), old)
    } else {
        left(plan, &state, &command)
    };
    rig.inputs.command = command;
    rig.expect(Call::Exchange, if past { BAD_STATE } else { 0 })?;
    if rig.inputs.state == after && rig.inputs.memory == memory && rig.reply() == reply {
        return Ok(());
    }
    Err(unexpected(rig, &state, "the failure expected"))
}

/// Commands that would stay in link 3, leave it, read, write, clear, or be refused.
fn commands(plan: &Plan) -> [Vec<u8>; 12] {
    [
        build::command(plan, 0x00),
        build::command(plan, 0x0F),
        build::command(plan, 0x0D),
        build::command(plan, 0x77),
        build::connect(plan, 2, 1),
        build::alarm_mode(plan, 0x06, 0),
        build::alarm_mode(plan, 0x05, 0),
        build::identity(plan, 0x80, 2, 3),
        build::parameter(plan, 0x01, 0x0107, 8),
        build::parameter(plan, 0x02, 0x0107, 8),
        build::memory(plan, 0x1D, memory_mode::octet(1), 3, 1),
        build::memory(plan, 0x1E, memory_mode::octet(1), 3, 1),
    ]
}

/// Every count up to past what any sheet allows, with every pair of latches.
fn every_count(rig: &mut Rig, plan: &Plan) -> Outcome {
    for failures in [0, 1, 2, 3, 4, 255] {
        for command_latch in [0, 8, 9, 10, 12] {
            for communication_latch in [0, 12] {
                let mut state = failing_state(plan.pdu_length, 15, 14, failures);
                state[3..5].copy_from_slice(&[1, 7]);
                state[8..10].copy_from_slice(&[command_latch, communication_latch]);
                for command in commands(plan) {
                    for wrong in WRONG {
                        rig.inputs.state = state.clone();
                        expect_failure(rig, plan, &command, wrong)?;
                    }
                }
            }
        }
    }
    Ok(())
}

/// Bodies of zeros and ones, as each code would take or refuse them.
fn every_code(rig: &mut Rig, plan: &Plan) -> Outcome {
    take_plan(rig, plan);
    for code in 0..=255 {
        for body in [0x00, 0xFF] {
            for failures in 0..=plan.allowed() {
                let mut command = vec![body; usize::from(plan.pdu_length)];
                command[0] = code;
                rig.inputs.state = failing_state(plan.pdu_length, 6, 15, failures);
                expect_failure(rig, plan, &command, (9, 0))?;
            }
        }
    }
    Ok(())
}

/// Every last MN and RSN with every MN and SN, at every count.
fn every_wdt(rig: &mut Rig, plan: &Plan) -> Outcome {
    take_plan(rig, plan);
    let command = build::command(plan, 0x00);
    for counters in 0..=255 {
        for failures in 0..=plan.allowed() {
            let state = failing_state(plan.pdu_length, counters & 15, counters >> 4, failures);
            for wrong in 1..=255 {
                rig.inputs.state = state.clone();
                expect_failure(rig, plan, &command, (wrong & 15, wrong >> 4))?;
            }
            rig.inputs.state = state.clone();
            exchange_in_step(rig, command.clone())?;
            expect_count(rig, &state, 0)?;
        }
    }
    Ok(())
}

/// Whether the exchange from this state has left link 3 with this count.
fn expect_count(rig: &mut Rig, state: &[u8], failures: u8) -> Outcome {
    if rig.inputs.state[LINK_AT] == SYNC && rig.inputs.state[FAILURES_AT] == failures {
        return Ok(());
    }
    Err(unexpected(rig, state, "the count expected"))
}

/// Enters link 3 by each way; then as many failures as are allowed, and one more.
fn runs(rig: &mut Rig, plan: &Plan) -> Outcome {
    let nop = build::command(plan, 0x00);
    for (link, entry) in [
        (DISCONNECTED, build::connect(plan, 2, 1)),
        (DISCONNECTED, build::connect(plan, 6, 2)),
        (ASYNC, build::command(plan, 0x0D)),
    ] {
        for wrong in WRONG {
            rig.inputs.state = plain_state(plan.pdu_length, link);
            exchange(rig, &entry)?;
            exchange(rig, &nop)?;
            for step in 0..plan.allowed() {
                expect_failure(rig, plan, &nop, wrong)?;
                expect_count(rig, &plain_state(plan.pdu_length, link), step + 1)?;
            }
            expect_failure(rig, plan, &nop, wrong)?;
            // Asynchronous now, so no WDT fails, and a new link 3 counts from 0.
            exchange(rig, &nop)?;
            exchange(rig, &build::command(plan, 0x0D))?;
            exchange(rig, &nop)?;
            expect_failure(rig, plan, &nop, wrong)?;
        }
    }
    Ok(())
}

/// Commands that pass check 1 and stay in link 3: accepted, and with each alarm.
fn staying(plan: &Plan) -> [Vec<u8>; 6] {
    [
        build::command(plan, 0x00),
        build::alarm_mode(plan, 0x06, 0),
        build::command(plan, 0x77),
        build::alarm_mode(plan, 0x06, 1),
        build::memory(plan, 0x1E, memory_mode::octet(1), 1, 5),
        build::command(plan, 0x0D),
    ]
}

/// A passing exchange after so many failures; then a whole run of them is allowed anew.
fn passing(rig: &mut Rig, plan: &Plan) -> Outcome {
    let nop = build::command(plan, 0x00);
    for failures in 0..=plan.allowed() {
        for command in staying(plan) {
            for wrong in WRONG {
                let state = failing_state(plan.pdu_length, 13, 15, 0);
                rig.inputs.state = state.clone();
                for _ in 0..failures {
                    expect_failure(rig, plan, &nop, wrong)?;
                }
                exchange_in_step(rig, command.clone())?;
                expect_count(rig, &state, 0)?;
                for _ in 0..=plan.allowed() {
                    expect_failure(rig, plan, &nop, wrong)?;
                }
            }
        }
        rig.inputs.state = failing_state(plan.pdu_length, 13, 15, failures);
        exchange_in_step(rig, build::command(plan, 0x0F))?;
        if rig.inputs.state != plain_state(plan.pdu_length, DISCONNECTED) {
            return Err(rig.difference("the link expected"));
        }
    }
    Ok(())
}

#[cfg(test)]
mod tests {
    use super::*;
    use crate::trial::engines::PEER;

    #[test]
    fn cycles_fail_by_each_cause_at_each_bound() {
        let mut rig = Rig::new(PEER);
        let outcome = run(&mut rig);
        assert_eq!(outcome.err().map(|found| found.to_string()), None);
        let gaps = rig.tally.gaps();
        assert!(!gaps.iter().any(|gap| gap.contains("failure")));
        let tolerated = |gap: &&String| gap.contains("tolerated") && !gap.starts_with("identity");
        assert_eq!(gaps.iter().find(tolerated), None);
    }
}
