//! Makes one call many times, so that another program can count instructions.
//!
//! repeat                    the cases, one name to a line
//! repeat CASE ENGINE CALLS  CASE is a line's number from 0, ENGINE peer or t24
#![deny(warnings)]

use peer::t24::T24;
use peer::timing::scene::table_scenes;
use peer::timing::stopwatch::repeat;
use peer::trial::engines::PEER;
use std::process::ExitCode;

fn run(arguments: &[String]) -> Option<()> {
    let (case, engine, calls) = match arguments {
        [case, engine, calls] => (case, engine, calls),
        _ => return None,
    };
    let scenes = table_scenes();
    let scene = scenes.get(case.parse::<usize>().ok()?)?;
    let engine = match engine.as_str() {
        "peer" => PEER,
        "t24" => T24,
        _ => return None,
    };
    repeat(&engine, scene, calls.parse().ok()?);
    Some(())
}

fn main() -> ExitCode {
    let arguments: Vec<String> = std::env::args().skip(1).collect();
    if arguments.is_empty() {
        for scene in table_scenes() {
            println!("{}", scene.name);
        }
        return ExitCode::SUCCESS;
    }
    match run(&arguments) {
        Some(()) => ExitCode::SUCCESS,
        None => {
            eprintln!("usage: repeat [CASE peer|t24 CALLS]");
            ExitCode::from(2)
        }
    }
}
