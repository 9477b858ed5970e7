//! Two engines beside each other: inputs, guarded buffers, and the comparison.

pub mod build;
pub mod call;
pub mod commands;
pub mod damage;
pub mod differences;
pub mod directed;
pub mod edits;
pub mod engines;
pub mod failures;
pub mod guarded;
pub mod layout;
pub mod links;
pub mod lists;
pub mod named;
pub mod pairs;
pub mod places;
pub mod plan;
pub mod probe;
pub mod progress;
pub mod random;
pub mod recorder;
pub mod released;
pub mod releases;
pub mod replies;
pub mod report;
pub mod rig;
pub mod runs;
pub mod samples;
pub mod side;
pub mod states;
pub mod tally;
pub mod turned;
pub mod typed;
pub mod wire;

use probe::Outcome;
use rig::Rig;

/// The directed trials, then random sequences of so many exchanges in all.
pub fn compare(rig: &mut Rig, exchanges: u64, seed: u64) -> Outcome {
    directed::run(rig)?;
    random_sequences(rig, exchanges, seed)
}

/// Random sequences of so many exchanges in all.
pub fn random_sequences(rig: &mut Rig, exchanges: u64, seed: u64) -> Outcome {
    let sequences = exchanges / runs::STEPS + u64::from(exchanges % runs::STEPS != 0);
    for sequence in 0..sequences {
        if let Some(progress) = &mut rig.progress {
            progress.reach(sequence, sequences);
        }
        runs::run_sequence(rig, seed, sequence)?;
    }
    Ok(())
}

#[cfg(test)]
mod tests {
    use super::*;
    use crate::engine;
    use engines::{Engine, PEER};

    #[test]
    fn an_engine_agrees_with_itself_and_all_rules_are_reached() {
        let mut rig = Rig::new(PEER);
        let outcome = compare(&mut rig, 20_000, 24);
        assert_eq!(outcome.err().map(|found| found.to_string()), None);
        assert_eq!(rig.tally.gaps(), Vec::<String>::new());
    }

    /// Forgets the latch when a cycle is lost with a latch set.
    fn forgetful(
        sheet: &[u8],
        state: &mut [u8],
        memory: &mut [u8],
        command: &[u8],
        reply: &mut [u8],
    ) -> u64 {
        let answer = engine::exchange(sheet, state, memory, command, reply);
        if answer == 0 && reply[3] == 0xC0 && state[8] == 10 {
            state[8] = 0;
        }
        answer
    }

    #[test]
    fn a_rare_difference_is_reported_whole() {
        let mut rig = Rig::new(Engine {
            exchange: forgetful,
            ..PEER
        });
        let report = match runs_until_difference(&mut rig) {
            Some(difference) => difference.to_string(),
            None => String::new(),
        };
        assert!(report.starts_with("difference: the state in Exchange"));
        assert!(report.contains("seed 24, sequence "));
        for part in [
            "sheet ",
            "state before ",
            "memory before ",
            "command ",
            "reply before ",
        ] {
            assert!(report.contains(part), "{part}");
        }
        for part in [
            "peer answer",
            "peer state",
            "t24 answer",
            "t24 state",
            "t24 memory",
            "t24 reply",
        ] {
            assert!(report.contains(part), "{part}");
        }
    }

    /// Random sequences only.
    fn runs_until_difference(rig: &mut Rig) -> Option<Box<report::Difference>> {
        (0..2000).find_map(|sequence| runs::run_sequence(rig, 24, sequence).err())
    }
}
