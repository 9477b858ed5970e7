//! Runs the archive's engine and the peer over the same calls and stops at the
//! first difference.
//!
//! compare [EXCHANGES] [SEED] [--progress] [--blocks]
//!
//! An archive of another version is refused at the start, with both versions.
//!
//! --blocks is for a checker of memory: the archive is lent each buffer in a
//! block of its own, and the directed trials, which are millions, are left out.
#![deny(warnings)]

use peer::crash::report_crashes;
use peer::t24::T24;
use peer::trial::call::Call;
use peer::trial::engines::PEER;
use peer::trial::guarded::Guarded;
use peer::trial::probe::Outcome;
use peer::trial::progress::Progress;
use peer::trial::rig::Rig;
use peer::trial::{compare, random_sequences};
use std::process::ExitCode;

const EXCHANGES: u64 = 1_000_000;
const SEED: u64 = 24;

type Buffer = fn(u8) -> Guarded;
type Trials = fn(&mut Rig, u64, u64) -> Outcome;

/// What the command line asks for.
struct Options {
    exchanges: u64,
    seed: u64,
    progress: bool,
    blocks: bool,
}

fn options() -> Option<Options> {
    let mut numbers = Vec::new();
    let (mut progress, mut blocks) = (false, false);
    for argument in std::env::args().skip(1) {
        if argument == "--progress" {
            progress = true;
        } else if argument == "--blocks" {
            blocks = true;
        } else {
            numbers.push(argument.parse().ok()?);
        }
    }
    if numbers.len() > 2 {
        return None;
    }
    Some(Options {
        exchanges: numbers.first().copied().unwrap_or(EXCHANGES),
        seed: numbers.get(1).copied().unwrap_or(SEED),
        progress,
        blocks,
    })
}

/// Which buffers the archive is lent, and which calls are made.
fn trials(blocks: bool) -> (Buffer, Trials) {
    if blocks {
        (Guarded::block, random_sequences)
    } else {
        (Guarded::new, compare)
    }
}

/// What the archive's version differs in from the one that these trials are for.
fn other_version() -> Option<String> {
    let (asked, told) = ((PEER.version)(), (T24.version)());
    if asked == told {
        return None;
    }
    Some(format!(
        "difference: the version, as the archive is of version {told} and compare is for version {asked}\norigin         the version"
    ))
}

fn main() -> ExitCode {
    let options = match options() {
        Some(options) => options,
        None => {
            eprintln!("usage: compare [EXCHANGES] [SEED] [--progress] [--blocks]");
            return ExitCode::from(2);
        }
    };
    println!("seed {}", options.seed);
    if let Some(words) = other_version() {
        println!("{words}");
        return ExitCode::FAILURE;
    }
    report_crashes();
    let (buffer, trials) = trials(options.blocks);
    let mut rig = Rig::lending(T24, buffer);
    rig.progress = options.progress.then(Progress::start);
    if let Err(difference) = trials(&mut rig, options.exchanges, options.seed) {
        println!("{difference}");
        println!("seed           {}", options.seed);
        return ExitCode::FAILURE;
    }
    print!("{}", rig.tally);
    for gap in rig.tally.gaps() {
        println!("not reached: {gap}");
    }
    println!(
        "compare: no difference in {} calls, {} of them exchanges, seed {}",
        rig.tally.all_calls(),
        rig.tally.calls(Call::Exchange),
        options.seed
    );
    ExitCode::SUCCESS
}
