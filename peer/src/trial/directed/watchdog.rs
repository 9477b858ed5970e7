//! The watchdog: every MN and SN against every last MN and RSN, and counts past 16 (request 5).

use crate::engine::memory_mode;
use crate::trial::build;
use crate::trial::plan::{each_type, Plan};
use crate::trial::probe::{exchange, exchange_from, exchange_in_step};
use crate::trial::probe::{take_plan, unexpected, Outcome};
use crate::trial::rig::Rig;
use crate::trial::samples::both_ends;
use crate::trial::states::{counting_state, plain_state, ASYNC, DISCONNECTED, LINK_AT, SYNC};

pub fn run(rig: &mut Rig) -> Outcome {
    rig.origin = "directed: every count of the watchdog".to_string();
    let (plan, short) = (both_ends(32), both_ends(16).in_short());
    every_count(rig, &plan, &commands(&plan))?;
    every_count(rig, &short, &commands(&short)[..2])?;
    long_count(rig, &both_ends(8))?;
    long_count(rig, &short)?;
    rig.origin = "directed: MN not known".to_string();
    for plan in each_type(both_ends) {
        not_known(rig, &plan)?;
    }
    rig.origin = "directed: WDT outside link 3".to_string();
    outside_link_3(rig, &both_ends(16))?;
    outside_link_3(rig, &short)
}

/// Commands that stay in link 3, that leave it, and that are refused there.
fn commands(plan: &Plan) -> [Vec<u8>; 6] {
    [
        build::command(plan, 0x00),
        build::command(plan, 0x0F),
        build::command(plan, 0x0E),
        build::command(plan, 0x77),
        build::alarm_mode(plan, 0x06, 0),
        build::memory(plan, 0x1E, memory_mode::octet(1), 3, 1),
    ]
}

/// One exchange with this WDT that has to end in this link.
fn expect_link(rig: &mut Rig, state: &[u8], command: &[u8], wdt: u8, link: u8) -> Outcome {
    let mut command = command.to_vec();
    command[rig.wire().wdt] = wdt;
    exchange_from(rig, state, &command)?;
    if rig.inputs.state[LINK_AT] == link {
        return Ok(());
    }
    Err(unexpected(rig, state, "the link expected"))
}

/// Every last MN and RSN with every MN and SN. One WDT of 256 is in step; the
/// cycle is lost by MN alone, by SN alone, or by both.
fn every_count(rig: &mut Rig, plan: &Plan, commands: &[Vec<u8>]) -> Outcome {
    take_plan(rig, plan);
    for last_mn in 0..16 {
        for rsn in 0..16 {
            for wdt in 0..=255 {
                let mut state = counting_state(plan.pdu_length, last_mn, rsn);
                state[9] = 12 * (wdt & 1);
                let in_step = wdt & 15 == (last_mn + 1) % 16 && wdt >> 4 == rsn;
                for command in commands {
                    let link = match command[0] {
                        _ if !in_step => ASYNC,
                        0x0F => DISCONNECTED,
                        _ => SYNC,
                    };
                    expect_link(rig, &state, command, wdt, link)?;
                }
            }
        }
    }
    Ok(())
}

/// While MN is not known, neither MN nor SN is asked; the WDT after that is.
fn not_known(rig: &mut Rig, plan: &Plan) -> Outcome {
    take_plan(rig, plan);
    let mut dual = plain_state(plan.pdu_length, SYNC);
    dual[3..5].copy_from_slice(&[1, 2]);
    for state in [plain_state(plan.pdu_length, SYNC), dual] {
        for command in commands(plan) {
            let link = if command[0] == 0x0F {
                DISCONNECTED
            } else {
                SYNC
            };
            for wdt in 0..=255 {
                expect_link(rig, &state, &command, wdt, link)?;
                exchange_in_step(rig, build::command(plan, 0x00))?;
                exchange(rig, &build::command(plan, 0x00))?;
            }
        }
    }
    Ok(())
}

/// In links 1 and 2 no WDT loses a cycle, also in the exchange that enters link 3.
fn outside_link_3(rig: &mut Rig, plan: &Plan) -> Outcome {
    take_plan(rig, plan);
    for wdt in 0..=255 {
        for (link, command, after) in [
            (DISCONNECTED, build::command(plan, 0x00), DISCONNECTED),
            (DISCONNECTED, build::connect(plan, 2, 1), SYNC),
            (DISCONNECTED, build::connect(plan, 0, 1), ASYNC),
            (ASYNC, build::command(plan, 0x00), ASYNC),
            (ASYNC, build::command(plan, 0x0D), SYNC),
            (ASYNC, build::command(plan, 0x0F), DISCONNECTED),
        ] {
            let state = plain_state(plan.pdu_length, link);
            expect_link(rig, &state, &command, wdt, after)?;
        }
    }
    Ok(())
}

/// Enters link 3 by each way and counts past 16 twice, then loses the count.
fn long_count(rig: &mut Rig, plan: &Plan) -> Outcome {
    take_plan(rig, plan);
    for entry in [
        build::connect(plan, 2, 1),
        build::connect(plan, 6, 2),
        build::command(plan, 0x0D),
    ] {
        let link = if entry[0] == 0x0D {
            ASYNC
        } else {
            DISCONNECTED
        };
        for (first_mn, first_sn) in (0..16).zip((0..16).rev()) {
            exchange_from(rig, &plain_state(plan.pdu_length, link), &entry)?;
            let mut first = build::command(plan, 0x00);
            first[plan.wire.wdt] = first_sn << 4 | first_mn;
            exchange(rig, &first)?;
            for code in (0..40).map(|step| if step % 5 == 0 { 0x20 } else { 0x00 }) {
                exchange_in_step(rig, build::command(plan, code))?;
            }
            exchange(rig, &first)?;
            exchange(rig, &build::command(plan, 0x0D))?;
            exchange(rig, &build::command(plan, 0x0F))?;
        }
    }
    Ok(())
}

#[cfg(test)]
mod tests {
    use super::*;
    use crate::trial::engines::PEER;

    #[test]
    fn cycles_are_lost_by_each_cause() {
        let mut rig = Rig::new(PEER);
        assert!(run(&mut rig).is_ok());
        let gaps = rig.tally.gaps();
        assert!(!gaps.iter().any(|gap| gap.starts_with("a cycle lost")));
    }
}
