//! Counts of the built replies of one PDU type.

use super::call::Inputs;
use super::commands::CODES;
use super::failures::Failures;
use super::places::Places;
use super::released::Released;
use super::replies::{Cycle, Replies};
use super::states::LINK_AT;
use super::wire::Wire;
use crate::engine::memory_mode;
use crate::engine::octets::{number_16, number_32};
use crate::engine::region::Region;
use crate::engine::sheet::Sheet;
use std::collections::BTreeMap;
use std::fmt;
use std::ops::Range;

/// The names of `CODES`.
pub const NAMES: [&str; 11] = [
    "NOP",
    "PRM_RD",
    "PRM_WR",
    "ID_RD",
    "ALM_RD",
    "ALM_CLR",
    "SYNC_SET",
    "CONNECT",
    "DISCONNECT",
    "MEM_RD",
    "MEM_WR",
];
pub const ALARMS: [usize; 4] = [8, 9, 10, 12];
/// PRM_RD, PRM_WR, MEM_RD and MEM_WR.
const SPANNING: [u8; 4] = [0x01, 0x02, 0x1D, 0x1E];

/// The codes that the type has, with their names.
pub fn codes_of(wire: &'static Wire) -> impl Iterator<Item = (u8, &'static str)> {
    let all = CODES.into_iter().zip(NAMES);
    all.filter(move |&(code, _)| wire.knows(code))
}

/// All built replies of one type.
pub struct Typed {
    wire: &'static Wire,
    codes: Vec<Replies>,
    /// Accepted commands over more than one region, by the codes that have a span.
    crossings: BTreeMap<u8, u64>,
    places: Places,
    failures: Failures,
    released: Released,
}

impl Typed {
    pub fn new(wire: &'static Wire) -> Typed {
        Typed {
            wire,
            codes: vec![Replies::default(); 256],
            crossings: BTreeMap::new(),
            places: Places::new(wire),
            failures: Failures::default(),
            released: Released::new(wire),
        }
    }

    /// Counts a built reply with the place told of it.
    pub fn add(&mut self, place: u64, before: &[u8], after: &Inputs, reply: &[u8]) {
        let (alarm, link) = (self.wire.alarm(reply), before[LINK_AT]);
        let cycle = Cycle::of(before, &after.state);
        self.codes[usize::from(reply[0])].add(link, usize::from(alarm), cycle);
        self.places.add(reply[0], alarm, place);
        self.failures.add(cycle, before, after, alarm == 0);
        self.released.add(cycle, alarm, place, after);
        if cycle == Cycle::Passed && alarm == 0 && crosses_regions(after) {
            *self.crossings.entry(reply[0]).or_insert(0) += 1;
        }
    }

    /// Refused commands of that code with that alarm and place.
    pub fn refused_at(&self, code: u8, alarm: u8, place: u64) -> u64 {
        self.places.count(code, alarm, place)
    }

    /// What the rules can give but no reply of this type has given yet.
    pub fn gaps(&self) -> Vec<String> {
        let mut gaps = Vec::new();
        for (code, name) in codes_of(self.wire) {
            let replies = &self.codes[usize::from(code)];
            gaps.extend(replies.gaps(name, &links_allowing(code), &alarms_of(code)));
            if SPANNING.contains(&code) && !self.crossings.contains_key(&code) {
                gaps.push(format!("{name} accepted over two regions"));
            }
        }
        gaps.extend(self.other_codes().gaps("another code", &[], &[8]));
        gaps.extend(self.failures.gaps());
        gaps.extend(self.places.gaps());
        gaps.extend(self.released.gaps());
        let named = gaps.into_iter();
        named
            .map(|gap| format!("{}{gap}", self.wire.name))
            .collect()
    }

    fn other_codes(&self) -> Replies {
        let known = |code: &u8| CODES.contains(code) && self.wire.knows(*code);
        let mut sum = Replies::default();
        for code in (0..=255u8).filter(|code| !known(code)) {
            sum.add_all(&self.codes[usize::from(code)]);
        }
        sum
    }
}

/// One row of a table, under `write_head`'s.
pub fn write_row(formatter: &mut fmt::Formatter, name: &str, sum: &Replies) -> fmt::Result {
    write!(formatter, "{name:11}")?;
    for link in 1..4 {
        write!(formatter, " {:10}", sum.accepted[link])?;
    }
    for alarm in ALARMS {
        write!(formatter, " {:9}", sum.alarms[alarm])?;
    }
    writeln!(formatter, " {:9} {:9}", sum.lost_cycles, sum.tolerated)
}

fn write_head(formatter: &mut fmt::Formatter) -> fmt::Result {
    write!(formatter, "{:11}", "command")?;
    for link in 1..4 {
        write!(formatter, " acc. link{link}")?;
    }
    for alarm in ALARMS {
        write!(formatter, " {:>9}", format!("alarm {alarm}"))?;
    }
    writeln!(formatter, " {:>9} {:>9}", "lost", "tolerated")
}

impl fmt::Display for Typed {
    fn fmt(&self, formatter: &mut fmt::Formatter) -> fmt::Result {
        if !self.wire.name.is_empty() {
            writeln!(formatter, "{}", self.wire.name.trim_end())?;
        }
        write_head(formatter)?;
        for (code, name) in codes_of(self.wire) {
            write_row(formatter, name, &self.codes[usize::from(code)])?;
        }
        write_row(formatter, "other codes", &self.other_codes())?;
        for (code, count) in &self.crossings {
            writeln!(
                formatter,
                "code {code:02X} accepted over more than one region: {count}"
            )?;
        }
        write!(
            formatter,
            "{}{}{}",
            self.failures, self.places, self.released
        )
    }
}

/// Whether an accepted command reached memory in more than one region.
fn crosses_regions(inputs: &Inputs) -> bool {
    if !SPANNING.contains(&inputs.command[0]) {
        return false;
    }
    match Sheet::read(&inputs.sheet) {
        Ok(sheet) => {
            let span = span_of(&sheet, &inputs.command);
            let touched = |region: &Region| span.start < region.end() && region.start < span.end;
            sheet.regions().filter(touched).count() > 1
        }
        Err(_) => false,
    }
}

/// The addresses that an accepted command of a code with a span means.
fn span_of(sheet: &Sheet, command: &[u8]) -> Range<u64> {
    let number = number_16(command, 4);
    let (start, octets) = match sheet.find_parameter(number) {
        Some(parameter) if command[0] <= 0x02 => (parameter.address, u64::from(parameter.size)),
        _ => {
            let element = memory_mode::element_octets(command[5]).unwrap_or(0) as u64;
            let count = u64::from(number_16(command, 6));
            (number_32(command, 8), element * count)
        }
    };
    u64::from(start)..u64::from(start) + octets
}

/// The links in which a code can be accepted.
fn links_allowing(code: u8) -> Vec<u8> {
    match code {
        0x00 | 0x0F => vec![1, 2, 3],
        0x0E => vec![1],
        0x0D => vec![2],
        _ => vec![2, 3],
    }
}

/// The alarms a known code can get.
fn alarms_of(code: u8) -> Vec<usize> {
    match code {
        0x00 | 0x0F => vec![],
        0x0D => vec![12],
        0x03 | 0x05 | 0x06 | 0x0E => vec![9, 12],
        _ => vec![9, 10, 12],
    }
}
