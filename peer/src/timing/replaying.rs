//! Times of a replay: one call on a long trace that agrees.

use super::scene::{plans, plans_of_both_types, shared_exchanges, usual_exchanges};
use super::scene::{NamedPlan, Scene};
use super::stopwatch::{median, Times};
use crate::trial::build::{command, distinct_octets, follow};
use crate::trial::engines::Engine;
use crate::trial::recorder::Recorder;
use crate::trial::states::{plain_state, ASYNC};
use std::time::Instant;

/// Records of a timed trace; the first half is out of step, the other in step.
pub const RECORDS: usize = 10_000;

const SYNC_SET: u8 = 0x0D;

/// A trace with what it starts from.
pub struct Replaying {
    pub name: String,
    sheet: Vec<u8>,
    recorded: Recorder,
}

/// What a replay answers and leaves behind.
type Left = (u64, Vec<u8>, Vec<u8>);

/// Traces on the typical and the largest sheet, on the typical one under release 2, and at L 16 on the typical one of both types.
pub fn replayings() -> Vec<Replaying> {
    let (plans, both) = (plans(), plans_of_both_types());
    let released = plans[1].in_release_2();
    let usual = [&plans[1], &plans[3], &released].map(|named| replaying(named, usual_exchanges));
    let shared = both[0]
        .iter()
        .map(|named| replaying(named, shared_exchanges));
    usual.into_iter().chain(shared).collect()
}

/// These exchanges in turn, with a SYNC_SET in the middle.
fn replaying(named: &NamedPlan, exchanges: fn(&NamedPlan, u8) -> Vec<Scene>) -> Replaying {
    let sheet = named.plan.octets();
    let state = plain_state(named.plan.pdu_length, ASYNC);
    let memory = distinct_octets(named.plan.memory_length());
    let mut recorded = Recorder::new(&state, &memory);
    let commands: Vec<Vec<u8>> = exchanges(named, ASYNC)
        .into_iter()
        .filter_map(|scene| scene.exchange.map(|(_, command)| command))
        .collect();
    for record in 0..RECORDS {
        let mut command = if record + 1 == RECORDS / 2 {
            command(&named.plan, SYNC_SET)
        } else {
            commands[record % commands.len()].clone()
        };
        follow(named.plan.wire, &mut command, recorded.current_state());
        recorded.record(&sheet, &command);
    }
    Replaying {
        name: named.name.clone(),
        sheet,
        recorded,
    }
}

impl Replaying {
    /// One replay from the start, with its nanoseconds.
    fn call(&self, engine: &Engine) -> (Left, f64) {
        let (mut state, mut memory) = (self.recorded.state.clone(), self.recorded.memory.clone());
        // A busy machine rather takes the core here than within the call.
        std::thread::yield_now();
        let start = Instant::now();
        let answer = (engine.replay)(&self.sheet, &mut state, &mut memory, &self.recorded.trace);
        let elapsed = start.elapsed().as_nanos() as f64;
        ((answer, state, memory), elapsed)
    }

    /// Whether both engines agree with all records, and leave the same.
    pub fn agree(&self, engines: &[Engine; 2]) -> bool {
        let [one, other] = [0, 1].map(|side| self.call(&engines[side]).0);
        one.0 == (RECORDS as u64) << 32 && one == other
    }

    /// Median nanoseconds per record of both engines, measured in turn.
    pub fn measure(&self, engines: &[Engine; 2], batches: usize) -> Times {
        let mut times = [Vec::new(), Vec::new()];
        for _ in 0..batches {
            for (engine, times) in engines.iter().zip(&mut times) {
                times.push(self.call(engine).1 / RECORDS as f64);
            }
        }
        times.map(median)
    }
}

#[cfg(test)]
mod tests {
    use super::*;
    use crate::trial::engines::PEER;
    use crate::trial::states::{LINK_AT, SYNC};
    use crate::trial::wire::Wire;

    #[test]
    fn every_record_is_accepted_and_the_trace_agrees() {
        for replaying in replayings() {
            let length = usize::from(replaying.sheet[1]);
            let wire = Wire::of_sheet(&replaying.sheet);
            let recorded = &replaying.recorded;
            assert_eq!(recorded.records, RECORDS as u64);
            assert_eq!(recorded.current_state()[LINK_AT], SYNC);
            for record in recorded.trace.chunks(1 + 2 * length) {
                let reply = &record[1 + length..];
                assert_eq!((wire.alarm(reply), reply[3]), (0, 0), "{}", replaying.name);
            }
            assert!(replaying.agree(&[PEER, PEER]));
            assert!(replaying.measure(&[PEER, PEER], 1)[0] > 0.0);
        }
    }
}
