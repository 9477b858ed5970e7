//! What is timed: reading a sheet, one exchange from a fixed state, or what changed between two sheets.

use super::differing::difference_scenes;
use crate::engine::memory_mode;
use crate::engine::sheet::Parameter;
use crate::trial::build;
use crate::trial::plan::Plan;
use crate::trial::samples::{largest, typical, Spans};
use crate::trial::states::{counting_state, plain_state, ASYNC, SYNC};

/// The L of the timed exchanges, those that are made in both types apart.
pub const PDU_LENGTH: u8 = 64;
/// The L of the short type, and what a PDU of it carries of a parameter or an ID item.
const SHORT_LENGTH: u8 = 16;
const CARRIED: u8 = 8;

/// One input for both engines.
#[derive(Clone, Debug)]
pub struct Scene {
    pub name: String,
    pub sheet: Vec<u8>,
    pub memory: Vec<u8>,
    /// State and command of an exchange; nothing if only the sheet is read.
    pub exchange: Option<(Vec<u8>, Vec<u8>)>,
    /// The second sheet of a difference, which has no exchange.
    pub second: Option<Vec<u8>>,
}

impl Scene {
    /// The octets of its reply, which a mere reading has none of but room for.
    pub fn pdu_length(&self) -> usize {
        usize::from(self.sheet[1])
    }
}

/// A sheet with its name.
pub struct NamedPlan {
    pub name: String,
    pub plan: Plan,
}

fn named(name: &str, plan: Plan) -> NamedPlan {
    NamedPlan {
        name: name.to_string(),
        plan,
    }
}

impl NamedPlan {
    /// The same sheet with a record of release 2, which is all that differs.
    pub fn in_release_2(&self) -> NamedPlan {
        let name = format!("{}, release 2", self.name);
        named(&name, self.plan.clone().in_release_2())
    }
}

/// The sheets that are timed, from the smallest to the largest.
pub fn plans() -> Vec<NamedPlan> {
    vec![
        named("smallest sheet", Plan::bare(PDU_LENGTH)),
        named("typical sheet", typical(PDU_LENGTH)),
        named(
            "largest sheet, spans first",
            largest(PDU_LENGTH, Spans::First),
        ),
        named(
            "largest sheet, spans last",
            largest(PDU_LENGTH, Spans::Last),
        ),
        named(
            "largest sheet, spans crossing",
            largest(PDU_LENGTH, Spans::Crossing),
        ),
    ]
}

/// Sheets of the enhanced type at the short type's L, each with the same one of the short type.
pub fn plans_of_both_types() -> [[NamedPlan; 2]; 2] {
    let usual = typical(SHORT_LENGTH);
    let full = largest(SHORT_LENGTH, Spans::Last);
    [
        [
            named("typical sheet, L 16", usual.clone()),
            named("typical sheet, short type", usual.in_short()),
        ],
        [
            named("largest sheet, L 16", full.clone()),
            named("largest sheet, short type", full.in_short()),
        ],
    ]
}

/// Reading a sheet.
pub fn reading(named: &NamedPlan) -> Scene {
    let sheet = named.plan.octets();
    Scene {
        name: format!("read {} ({} octets)", named.name, sheet.len()),
        sheet,
        memory: Vec::new(),
        exchange: None,
        second: None,
    }
}

/// One exchange from link 2, or from link 3 with the MN that follows.
pub fn exchanging(named: &NamedPlan, link: u8, what: &str, command: Vec<u8>) -> Scene {
    let state = if link == SYNC {
        counting_state(named.plan.pdu_length, 7, 7)
    } else {
        plain_state(named.plan.pdu_length, link)
    };
    let mut command = command;
    build::follow(named.plan.wire, &mut command, &state);
    Scene {
        name: format!("{what}, link {link}, {}", named.name),
        sheet: named.plan.octets(),
        memory: build::distinct_octets(named.plan.memory_length()),
        exchange: Some((state, command)),
        second: None,
    }
}

/// A memory command over `length` octets from `address` on.
pub fn memory_command(plan: &Plan, code: u8, length: u16, address: u64) -> Vec<u8> {
    build::memory(plan, code, memory_mode::octet(1), length, address)
}

/// The exchanges of the table for one sheet and link, spans at the memory's end.
pub fn usual_exchanges(named: &NamedPlan, link: u8) -> Vec<Scene> {
    let plan = &named.plan;
    let end = plan.regions.last().map_or(0, |region| region.end());
    let mut scenes = vec![exchanging(named, link, "NOP", build::command(plan, 0x00))];
    for (code, name) in [(0x1D, "MEM_RD"), (0x1E, "MEM_WR")] {
        for length in [4, 52] {
            let command = memory_command(plan, code, length, end - u64::from(length));
            scenes.push(exchanging(
                named,
                link,
                &format!("{name} of {length}"),
                command,
            ));
        }
    }
    if let Some(parameter) = plan.parameters.last() {
        let command = build::parameter(plan, 0x01, parameter.number, parameter.size);
        let what = format!("PRM_RD of {}", parameter.size);
        scenes.push(exchanging(named, link, &what, command));
    }
    scenes
}

/// A parameter read and written where the last region gives no right: refused
/// for the right, at the span's first octet that lies there.
fn refused_exchanges(named: &NamedPlan, link: u8) -> Vec<Scene> {
    let mut plan = named.plan.clone();
    if let Some(region) = plan.regions.last_mut() {
        region.rights = 0;
    }
    let shut = NamedPlan {
        name: named.name.clone(),
        plan,
    };
    let mut scenes = Vec::new();
    if let Some(parameter) = shut.plan.parameters.last() {
        for (code, name) in [(0x01, "PRM_RD"), (0x02, "PRM_WR")] {
            let command = build::parameter(&shut.plan, code, parameter.number, parameter.size);
            let what = format!("{name} of {}, refused", parameter.size);
            scenes.push(exchanging(&shut, link, &what, command));
        }
    }
    scenes
}

/// Exchanges that both types have, with the same fields and data.
pub fn shared_exchanges(named: &NamedPlan, link: u8) -> Vec<Scene> {
    let plan = &named.plan;
    let mut scenes = vec![exchanging(named, link, "NOP", build::command(plan, 0x00))];
    let carried = |parameter: &&Parameter| parameter.size <= CARRIED;
    if let Some(parameter) = plan.parameters.last().filter(carried) {
        for (code, name) in [(0x01, "PRM_RD"), (0x02, "PRM_WR")] {
            let command = build::parameter(plan, code, parameter.number, parameter.size);
            let what = format!("{name} of {}", parameter.size);
            scenes.push(exchanging(named, link, &what, command));
        }
    }
    if let Some(item) = plan.items.last() {
        let command = build::identity(plan, item.code, 0, u16::from(CARRIED));
        let what = format!("ID_RD of {CARRIED}");
        scenes.push(exchanging(named, link, &what, command));
    }
    scenes
}

/// Exchanges of the typical sheet under release 2, each of which has one under release 1 in the table.
pub fn release_2_exchanges() -> Vec<Scene> {
    let [_, short] = &plans_of_both_types()[0];
    let mut scenes = usual_exchanges(&plans()[1].in_release_2(), ASYNC);
    scenes.extend(shared_exchanges(&short.in_release_2(), ASYNC));
    scenes
}

/// The rows of the table: reading each sheet, exchanges on the typical and the
/// largest in both links, exchanges of both types at one L, those of release 2,
/// and differences.
pub fn table_scenes() -> Vec<Scene> {
    let plans = plans();
    let mut scenes: Vec<Scene> = plans.iter().map(reading).collect();
    for named in [&plans[1], &plans[3]] {
        for link in [2, 3] {
            scenes.extend(usual_exchanges(named, link));
            scenes.extend(refused_exchanges(named, link));
        }
    }
    for link in [2, 3] {
        for [enhanced, short] in &plans_of_both_types() {
            let pairs = shared_exchanges(enhanced, link).into_iter();
            let pairs = pairs.zip(shared_exchanges(short, link));
            scenes.extend(pairs.flat_map(|(one, other)| [one, other]));
        }
    }
    scenes.extend(release_2_exchanges());
    scenes.extend(difference_scenes());
    scenes
}
