//! Reports a crash of the archive's engine like any other difference.
#![allow(unsafe_code)]

use crate::trial::rig::AT_WORK;
use std::panic::set_hook;
use std::process::exit;
use std::ptr::null_mut;
use std::sync::atomic::Ordering;

/// Illegal instruction, trap, abort, bus error, arithmetic, bad address.
const SIGNALS: [i32; 6] = [4, 5, 6, 7, 8, 11];
/// The program's own fault, not the archive's.
const OWN_FAULT: i32 = 3;

extern "C" {
    fn signal(number: i32, handler: extern "C" fn(i32)) -> usize;
}

/// From now on a crash inside a call prints the whole call and exits with 1.
pub fn report_crashes() {
    set_hook(Box::new(|panic| {
        if !report("a panic") {
            eprintln!("{panic}");
        }
    }));
    for number in SIGNALS {
        // The handler never returns, so it may use what a handler else may not.
        unsafe { signal(number, on_signal) };
    }
}

extern "C" fn on_signal(number: i32) {
    report(&format!("a crash with signal {number}"));
    exit(OWN_FAULT);
}

/// Exits after the report if the archive's engine is at work.
fn report(what: &str) -> bool {
    let rig = AT_WORK.swap(null_mut(), Ordering::Relaxed);
    if rig.is_null() {
        return false;
    }
    // The rig waits in a call that will not come back.
    println!("{}", unsafe { &*rig }.difference(what));
    exit(1);
}
