//! Times the archive's engine and the peer on the same inputs, as a table.
//!
//! measure [BATCHES]
#![deny(warnings)]

use peer::t24::T24;
use peer::timing::replaying::{replayings, RECORDS};
use peer::timing::scene::table_scenes;
use peer::timing::search::worst;
use peer::timing::stopwatch::{agree, measure, Times};
use peer::trial::engines::{Engine, PEER};
use std::process::ExitCode;

const BATCHES: usize = 101;
const ENGINES: [Engine; 2] = [PEER, T24];

fn print_row(name: &str, times: Times) {
    let [peer, t24] = times;
    let ratio = t24 / peer;
    let per_second = 1e9 / t24;
    println!("| {name} | {peer:.0} | {t24:.0} | {ratio:.2} | {per_second:.0} |");
}

/// Exchanges in a second, from the slowest to the fastest of the table.
fn print_range(exchanges: &[Times]) {
    let per_second = |side: usize, pick: fn(f64, f64) -> f64| {
        let time = exchanges.iter().map(|times| times[side]).reduce(pick);
        1e9 / time.unwrap_or(f64::NAN)
    };
    println!();
    println!(
        "Exchanges in a second on one core: t24 from {:.0} to {:.0}, peer from {:.0} to {:.0}.",
        per_second(1, f64::max),
        per_second(1, f64::min),
        per_second(0, f64::max),
        per_second(0, f64::min)
    );
}

fn print_head() {
    println!("Median of batches, one core; times in nanoseconds per call.");
    println!();
    println!("| case | peer | t24 | t24 / peer | t24 calls per second |");
    println!("|---|---:|---:|---:|---:|");
}

/// Replays of long traces; false if the engines do not agree on one.
fn print_replays(batches: usize) -> bool {
    println!();
    println!("### Replay");
    println!();
    println!("Median of calls with {RECORDS} records, of L 64 unless told otherwise, one core; times in nanoseconds per record.");
    println!();
    println!("| trace | peer | t24 | t24 / peer | t24 records per second |");
    println!("|---|---:|---:|---:|---:|");
    for replaying in replayings() {
        if !replaying.agree(&ENGINES) {
            println!(
                "measure: the engines differ in a replay, {}",
                replaying.name
            );
            return false;
        }
        print_row(&replaying.name, replaying.measure(&ENGINES, batches));
    }
    true
}

fn main() -> ExitCode {
    let batches = match std::env::args().nth(1).map(|argument| argument.parse()) {
        None => BATCHES,
        Some(Ok(batches)) if batches > 0 => batches,
        Some(_) => {
            eprintln!("usage: measure [BATCHES]");
            return ExitCode::from(2);
        }
    };
    let scenes = table_scenes();
    if let Some(scene) = scenes.iter().find(|scene| !agree(&ENGINES, scene)) {
        println!("measure: the engines differ in {}", scene.name);
        return ExitCode::FAILURE;
    }
    print_head();
    let mut exchanges = Vec::new();
    for scene in &scenes {
        let times = measure(&ENGINES, scene, batches);
        print_row(&scene.name, times);
        if scene.exchange.is_some() {
            exchanges.push(times);
        }
    }
    for (side, name) in ["peer", "t24"].into_iter().enumerate() {
        if let Some(worst) = worst(&ENGINES, side, batches) {
            let searched = format!("slowest of {} for {name}", worst.candidates);
            print_row(&format!("{searched}: {}", worst.scene.name), worst.times);
            exchanges.push(worst.times);
        }
    }
    print_range(&exchanges);
    if print_replays(batches) {
        ExitCode::SUCCESS
    } else {
        ExitCode::FAILURE
    }
}
