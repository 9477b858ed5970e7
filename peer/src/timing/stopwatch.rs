//! The median time of a call, over many batches of both engines in turn.

use super::scene::Scene;
use crate::trial::engines::Engine;
use crate::trial::states::LENGTH;
use std::time::Instant;

/// Octets for a list of differences, more than any two sheets can fill.
const LIST: usize = 4096;
/// The shortest batch that is timed, in nanoseconds.
const BATCH: u128 = 100_000;

/// Nanoseconds of one call, for both engines.
pub type Times = [f64; 2];

/// One engine at work on a scene, with its own buffers.
struct Running<'a> {
    engine: &'a Engine,
    scene: &'a Scene,
    state: Vec<u8>,
    memory: Vec<u8>,
    reply: Vec<u8>,
    list: Vec<u8>,
}

impl<'a> Running<'a> {
    fn new(engine: &'a Engine, scene: &'a Scene) -> Running<'a> {
        Running {
            engine,
            scene,
            state: vec![0; LENGTH],
            memory: scene.memory.clone(),
            reply: vec![0; scene.pdu_length()],
            list: vec![0; LIST],
        }
    }

    /// One call; an exchange starts from the scene's state each time.
    #[inline(never)]
    fn call(&mut self) -> u64 {
        let scene = self.scene;
        match (&scene.exchange, &scene.second) {
            (None, None) => (self.engine.sheet)(&scene.sheet),
            (None, Some(second)) => (self.engine.difference)(&scene.sheet, second, &mut self.list),
            (Some((state, command)), _) => {
                self.state.copy_from_slice(state);
                (self.engine.exchange)(
                    &scene.sheet,
                    &mut self.state,
                    &mut self.memory,
                    command,
                    &mut self.reply,
                )
            }
        }
    }

    /// Nanoseconds of so many calls.
    fn batch(&mut self, calls: u64) -> u128 {
        let start = Instant::now();
        // A place tells of a refused command, whose reply is built and timed as any other, or of a list's length.
        let numbers = (0..calls).fold(0, |all, _| all | self.call() as u32);
        let elapsed = start.elapsed().as_nanos();
        assert!(
            numbers == 0,
            "a timed call was refused: {}",
            self.scene.name
        );
        elapsed
    }

    fn calls_of_a_batch(&mut self) -> u64 {
        let mut calls = 1;
        while self.batch(calls) < BATCH {
            calls *= 2;
        }
        calls
    }
}

/// Median nanoseconds per call of both engines, measured in turn.
pub fn measure(engines: &[Engine; 2], scene: &Scene, batches: usize) -> Times {
    let mut running: Vec<Running> = engines
        .iter()
        .map(|engine| Running::new(engine, scene))
        .collect();
    let calls: Vec<u64> = running.iter_mut().map(Running::calls_of_a_batch).collect();
    let mut times = [Vec::new(), Vec::new()];
    for _ in 0..batches {
        for side in 0..2 {
            let elapsed = running[side].batch(calls[side]);
            times[side].push(elapsed as f64 / calls[side] as f64);
        }
    }
    let [ours, theirs] = times;
    [median(ours), median(theirs)]
}

/// So many calls of one engine, for counters outside this program.
pub fn repeat(engine: &Engine, scene: &Scene, calls: u64) {
    Running::new(engine, scene).batch(calls);
}

/// Whether both engines leave the same reply, state, memory and list.
pub fn agree(engines: &[Engine; 2], scene: &Scene) -> bool {
    let outcome = |engine| {
        let mut running = Running::new(engine, scene);
        let answer = running.call();
        let list = running.list;
        (answer, running.state, running.memory, running.reply, list)
    };
    outcome(&engines[0]) == outcome(&engines[1])
}

/// The middle of the times.
pub fn median(mut times: Vec<f64>) -> f64 {
    times.sort_by(f64::total_cmp);
    times[times.len() / 2]
}

#[cfg(test)]
mod tests {
    use super::*;
    use crate::timing::scene::{plans, plans_of_both_types, reading, release_2_exchanges};
    use crate::timing::scene::{shared_exchanges, table_scenes, usual_exchanges};
    use crate::trial::engines::PEER;
    use crate::trial::wire::Wire;

    #[test]
    fn the_middle_time_is_taken() {
        assert_eq!(median(vec![9.0, 1.0, 5.0]), 5.0);
    }

    fn is_accepted_and_can_be_timed(scene: &Scene) {
        let mut running = Running::new(&PEER, scene);
        assert_eq!(running.call(), 0);
        let alarm = Wire::of_sheet(&scene.sheet).alarm(&running.reply);
        assert_eq!(alarm, 0, "{}", scene.name);
        assert!(agree(&[PEER, PEER], scene));
        assert!(measure(&[PEER, PEER], scene, 1)[0] > 0.0);
    }

    #[test]
    fn every_scene_is_accepted_and_can_be_timed() {
        for link in [2, 3] {
            for named in plans().iter().skip(1) {
                is_accepted_and_can_be_timed(&reading(named));
                let scenes = usual_exchanges(named, link);
                scenes.iter().for_each(is_accepted_and_can_be_timed);
            }
            for named in plans_of_both_types().iter().flatten() {
                let scenes = shared_exchanges(named, link);
                scenes.iter().for_each(is_accepted_and_can_be_timed);
            }
        }
    }

    /// The record of release 2 is all that differs in the sheet, and zeros in the command.
    #[test]
    fn exchanges_of_release_2_have_their_like_of_release_1() {
        let table = table_scenes();
        for scene in release_2_exchanges() {
            is_accepted_and_can_be_timed(&scene);
            let name = scene.name.replace(", release 2", "");
            let like = table.iter().find(|other| other.name == name);
            let mut sheet = like.map_or(Vec::new(), |like| like.sheet.clone());
            sheet.pop();
            sheet.extend([7, 2, 0]);
            assert_eq!(sheet, scene.sheet, "{name}");
        }
    }

    /// Both types' rows are of the same exchanges: the names differ in the type alone.
    #[test]
    fn exchanges_of_both_types_are_the_same() {
        for pair in plans_of_both_types() {
            let [enhanced, short] = pair.map(|named| shared_exchanges(&named, 3));
            assert_eq!(enhanced.len(), short.len());
            for (one, other) in enhanced.iter().zip(&short) {
                assert_eq!(one.name.replace("L 16", "short type"), other.name);
                assert_eq!((one.sheet[0], other.sheet[0]), (1, 5));
                assert_eq!(one.sheet[1..], other.sheet[1..]);
            }
        }
    }
}
