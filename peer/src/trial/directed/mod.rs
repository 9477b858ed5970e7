//! Trials that reach every rule on purpose, the same on every run.

mod buffers;
mod data;
mod failing_traces;
mod failures;
mod identities;
mod lacking;
mod limits;
mod link_records;
mod links;
mod octets;
mod order;
mod pair_faults;
mod pair_lists;
mod pair_records;
mod parameters;
mod places;
mod releases;
mod reserved;
mod reserved_traces;
mod reserves;
mod sheets;
mod states;
mod tolerances;
mod traces;
mod turns;
mod watchdog;
mod wrong;

use super::probe::Outcome;
use super::rig::Rig;

/// All directed trials.
pub fn run(rig: &mut Rig) -> Outcome {
    link_records::run(rig)?;
    releases::run(rig)?;
    pair_faults::run(rig)?;
    pair_records::run(rig)?;
    buffers::run(rig)?;
    states::run(rig)?;
    turns::run(rig)?;
    links::run(rig)?;
    watchdog::run(rig)?;
    failures::run(rig)?;
    identities::run(rig)?;
    parameters::run(rig)?;
    data::run(rig)?;
    octets::run(rig)?;
    reserves::run(rig)?;
    places::run(rig)?;
    wrong::run(rig)?;
    lacking::run(rig)?;
    limits::run(rig)?;
    tolerances::run(rig)?;
    reserved::run(rig)?;
    order::run(rig)?;
    places::run_in_release_2(rig)?;
    pair_records::run_all_kinds(rig)?;
    pair_lists::run(rig)?;
    sheets::run(rig)?;
    failing_traces::run(rig)?;
    traces::run(rig)?;
    reserved_traces::run(rig)
}
