//! A search for the exchange that takes an engine longest.

use super::scene::{exchanging, memory_command, plans, NamedPlan, Scene};
use super::stopwatch::measure;
use crate::trial::build;
use crate::trial::engines::Engine;
use crate::trial::states::{ASYNC, SYNC};

/// Batches of a first look, and how many of the slowest are measured again.
const LOOK: usize = 3;
const AGAIN: usize = 8;

/// The slowest scene for one of the engines, with its time.
pub struct Worst {
    pub scene: Scene,
    pub times: [f64; 2],
    pub candidates: usize,
}

/// Looks at all candidates briefly and at the slowest thoroughly.
pub fn worst(engines: &[Engine; 2], side: usize, batches: usize) -> Option<Worst> {
    let scenes = candidates();
    let candidates = scenes.len();
    let mut looked: Vec<(f64, Scene)> = scenes
        .into_iter()
        .map(|scene| (measure(engines, &scene, LOOK)[side], scene))
        .collect();
    looked.sort_by(|one, other| other.0.total_cmp(&one.0));
    looked
        .into_iter()
        .take(AGAIN)
        .map(|(_, scene)| Worst {
            times: measure(engines, &scene, batches),
            scene,
            candidates,
        })
        .max_by(|one, other| one.times[side].total_cmp(&other.times[side]))
}

fn candidates() -> Vec<Scene> {
    let mut scenes = Vec::new();
    for named in plans().iter().flat_map(of_both_releases) {
        for link in [ASYNC, SYNC] {
            scenes.extend(memory_candidates(&named, link));
            scenes.extend(other_candidates(&named, link));
        }
    }
    scenes
}

/// Under release 2 the whole command is looked at.
fn of_both_releases(named: &NamedPlan) -> [NamedPlan; 2] {
    let same = NamedPlan {
        name: named.name.clone(),
        plan: named.plan.clone(),
    };
    [same, named.in_release_2()]
}

/// Spans at the start and end of regions, and one that is not mapped.
fn memory_candidates(named: &NamedPlan, link: u8) -> Vec<Scene> {
    let plan = &named.plan;
    let mut scenes = Vec::new();
    let last = plan.regions.len().saturating_sub(1);
    for (index, region) in plan.regions.iter().enumerate() {
        if index % 8 != 0 && index != last {
            continue;
        }
        for (code, name) in [(0x1D, "MEM_RD"), (0x1E, "MEM_WR")] {
            for length in [1, 52] {
                for address in [
                    region.start,
                    region.end() - 1,
                    region.end().saturating_sub(52),
                ] {
                    let what = format!("{name} of {length} at {address:X}");
                    let command = memory_command(plan, code, length, address);
                    scenes.push(exchanging(named, link, &what, command));
                }
            }
        }
    }
    scenes
}

/// Parameters and ID items at both ends of their tables, and the rest.
fn other_candidates(named: &NamedPlan, link: u8) -> Vec<Scene> {
    let plan = &named.plan;
    let mut scenes = Vec::new();
    for parameter in plan.parameters.iter().take(1).chain(plan.parameters.last()) {
        for (code, name) in [(0x01, "PRM_RD"), (0x02, "PRM_WR")] {
            let what = format!("{name} {}", parameter.number);
            let command = build::parameter(plan, code, parameter.number, parameter.size);
            scenes.push(exchanging(named, link, &what, command));
        }
    }
    for item in plan.items.iter().take(1).chain(plan.items.last()) {
        let what = format!("ID_RD {}", item.code);
        let size = item.octets.len() as u16;
        scenes.push(exchanging(
            named,
            link,
            &what,
            build::identity(plan, item.code, 0, size),
        ));
    }
    for (code, name) in [(0x00, "NOP"), (0x0F, "DISCONNECT"), (0x77, "unknown code")] {
        scenes.push(exchanging(named, link, name, build::command(plan, code)));
    }
    scenes.push(exchanging(
        named,
        link,
        "ALM_RD",
        build::alarm_mode(plan, 0x05, 0),
    ));
    scenes
}
