//! Sheets that directed trials and measurements start from.

use super::plan::{item, parameter, region, Plan};

/// Sheet P of document 01.
pub fn sheet_p() -> Plan {
    Plan {
        version: 0x30,
        profile: 0,
        regions: vec![region(0x1000, 4, 3), region(0x1004, 4, 6)],
        parameters: vec![parameter(7, 0x1002, 2)],
        ..Plan::bare(16)
    }
}

/// A few records of each kind: regions without and with gaps, at both ends of
/// the addresses, so that a span that wrapped would find memory.
pub fn both_ends(pdu_length: u8) -> Plan {
    Plan {
        regions: vec![
            region(0, 5, 7),
            region(5, 1, 1),
            region(6, 6, 7),
            region(13, 3, 5),
            region(0xFFFF_FFF0, 9, 7),
            region(0xFFFF_FFF9, 7, 3),
        ],
        parameters: vec![
            parameter(0x0006, 2, 8),
            parameter(0x0007, 13, 3),
            parameter(0x0107, 0xFFFF_FFF8, 8),
        ],
        items: vec![item(1, &[0x51, 0x52]), item(0x80, &[0x61; 32])],
        ..Plan::bare(pdu_length)
    }
}

/// The same, with so many failures in a row allowed.
pub fn tolerant(pdu_length: u8, tolerance: Option<u8>) -> Plan {
    Plan {
        tolerance,
        ..both_ends(pdu_length)
    }
}

/// The same, and this release of the drive rules.
pub fn released(pdu_length: u8, tolerance: Option<u8>, release: Option<u8>) -> Plan {
    Plan {
        release,
        ..tolerant(pdu_length, tolerance)
    }
}

/// A sheet as a drive would have it: 8 regions, 16 parameters, 4 ID items.
pub fn typical(pdu_length: u8) -> Plan {
    let mut plan = Plan::bare(pdu_length);
    for index in 0..8 {
        plan.regions.push(region(0x1000 + index * 0x100, 0x100, 7));
    }
    for index in 0..16u16 {
        let address = 0x1000 + u32::from(index) * 0x80;
        plan.parameters.push(parameter(index * 3, address, 4));
    }
    for index in 0..4 {
        plan.items.push(item(index * 16, &[0x41; 24]));
    }
    plan
}

/// Where the parameters of the largest sheet lie.
#[derive(Clone, Copy, Debug, PartialEq, Eq)]
pub enum Spans {
    First,
    Last,
    /// Each over as many regions as it can.
    Crossing,
}

/// The largest sheet: 32 regions, 64 parameters of 56 octets, 32 full items, and a tolerance.
pub fn largest(pdu_length: u8, spans: Spans) -> Plan {
    let mut plan = Plan::bare(pdu_length);
    let mut at = 0x2_0000;
    for index in 0..32 {
        let length = match spans {
            Spans::Crossing if index < 31 => 1,
            Spans::Crossing => 1024,
            _ => 2048,
        };
        plan.regions.push(region(at, length, 7));
        at += length;
    }
    for index in 0..64 {
        let address = match spans {
            Spans::First => 0x2_0000 + u32::from(index) * 31,
            Spans::Last => at as u32 - 56 - u32::from(index) * 31,
            Spans::Crossing => 0x2_0000,
        };
        plan.parameters.push(parameter(1000 + index, address, 56));
    }
    for index in 0..32 {
        plan.items.push(item(index * 8, &[0x42; 32]));
    }
    plan.tolerance = Some(3);
    plan
}

/// The same keys with other fields, of a plan whose regions are longer than one octet and have all rights.
pub fn changed_all(plan: &Plan) -> Plan {
    let mut changed = plan.clone();
    changed.profile ^= 1;
    for region in &mut changed.regions {
        region.rights = 3;
    }
    for parameter in &mut changed.parameters {
        parameter.size -= 1;
    }
    for item in &mut changed.items {
        item.octets[31] ^= 1;
    }
    changed.tolerance = plan.tolerance.map(|failures| failures ^ 1);
    changed.release = plan.release.map(|release| 3 - release);
    changed
}

/// Other keys, of the other type: no record of the one is in the other but for those without a key.
pub fn moved_all(plan: &Plan) -> Plan {
    let mut moved = changed_all(plan).in_short();
    for region in &mut moved.regions {
        region.start += 1;
    }
    for parameter in &mut moved.parameters {
        parameter.number += 1000;
    }
    for item in &mut moved.items {
        item.code += 1;
    }
    moved
}

#[cfg(test)]
mod tests {
    use super::*;
    use crate::engine;

    #[test]
    fn samples_are_good_sheets() {
        assert_eq!(engine::sheet(&sheet_p().octets()), 0);
        assert_eq!(sheet_p().octets().len(), 33);
        assert_eq!(engine::sheet(&both_ends(48).octets()), 0);
        assert_eq!(engine::sheet(&tolerant(8, Some(3)).octets()), 0);
        assert_eq!(engine::sheet(&released(8, None, Some(2)).octets()), 0);
        assert_eq!(engine::sheet(&typical(64).octets()), 0);
        for spans in [Spans::First, Spans::Last, Spans::Crossing] {
            let octets = largest(64, spans).octets();
            assert_eq!((engine::sheet(&octets), octets.len()), (0, 1959));
        }
        let full = largest(64, Spans::Last).in_release_2();
        assert_eq!(engine::sheet(&changed_all(&full).octets()), 0);
        assert_eq!(engine::sheet(&moved_all(&full).octets()), 0);
    }
}
