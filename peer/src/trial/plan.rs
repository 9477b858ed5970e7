//! A sheet as a plan of records, from which octets are written.

use super::wire::{Wire, ENHANCED, SHORT};
use crate::engine::region::Region;
use crate::engine::sheet::{Parameter, Sheet};

/// The lengths a PDU may have.
pub const LENGTHS: [u8; 5] = [8, 16, 32, 48, 64];

/// An ID item without the zeros behind it.
#[derive(Clone, Debug, PartialEq, Eq)]
pub struct Item {
    pub code: u8,
    pub octets: Vec<u8>,
}

/// The records of a sheet, good or bad.
#[derive(Clone, Debug, PartialEq, Eq)]
pub struct Plan {
    /// The PDU type that its first record selects.
    pub wire: &'static Wire,
    pub pdu_length: u8,
    pub version: u8,
    pub profile: u8,
    pub regions: Vec<Region>,
    pub parameters: Vec<Parameter>,
    pub items: Vec<Item>,
    /// Nothing for a sheet without the record.
    pub tolerance: Option<u8>,
    /// The same.
    pub release: Option<u8>,
}

impl Plan {
    /// A plan of a link record only.
    pub fn bare(pdu_length: u8) -> Plan {
        Plan {
            wire: &ENHANCED,
            pdu_length,
            version: 0x30,
            profile: 0x05,
            regions: Vec::new(),
            parameters: Vec::new(),
            items: Vec::new(),
            tolerance: None,
            release: None,
        }
    }

    /// The same records for the short type, whose L is 16.
    pub fn in_short(self) -> Plan {
        Plan {
            wire: &SHORT,
            pdu_length: 16,
            ..self
        }
    }

    /// The plan of a good sheet.
    pub fn read(octets: &[u8]) -> Option<Plan> {
        let sheet = Sheet::read(octets).ok()?;
        Some(Plan {
            wire: Wire::of_sheet(octets),
            pdu_length: sheet.pdu_length(),
            version: sheet.version(),
            profile: sheet.profile(),
            regions: sheet.regions().collect(),
            parameters: sheet.parameters().collect(),
            items: sheet
                .items()
                .map(|(code, octets)| Item {
                    code,
                    octets: octets.to_vec(),
                })
                .collect(),
            tolerance: sheet.tolerance_record(),
            release: sheet.release_record(),
        })
    }

    pub fn link_record(&self) -> Vec<u8> {
        vec![
            self.wire.link_kind,
            self.pdu_length,
            self.version,
            self.profile,
        ]
    }

    /// The records one by one, the end included.
    pub fn records(&self) -> Vec<Vec<u8>> {
        let mut records = vec![self.link_record()];
        records.extend(self.regions.iter().map(region_record));
        records.extend(self.parameters.iter().map(parameter_record));
        records.extend(self.items.iter().map(item_record));
        records.extend(self.tolerance.map(tolerance_record));
        records.extend(self.release.map(release_record));
        records.push(vec![0]);
        records
    }

    pub fn octets(&self) -> Vec<u8> {
        self.records().concat()
    }

    /// The same records under release 2.
    pub fn in_release_2(self) -> Plan {
        Plan {
            release: Some(2),
            ..self
        }
    }

    /// Whether reserved octets have to be zero.
    pub fn asks_zeros(&self) -> bool {
        self.release == Some(2)
    }

    /// How many failures in a row the sheet allows.
    pub fn allowed(&self) -> u8 {
        self.tolerance.unwrap_or(0)
    }

    pub fn memory_length(&self) -> usize {
        self.regions.iter().map(|region| region.length).sum::<u64>() as usize
    }

    /// Stretches of addresses without a gap, as start and length.
    pub fn runs(&self) -> Vec<(u64, u64)> {
        let mut runs: Vec<(u64, u64)> = Vec::new();
        for region in &self.regions {
            match runs.last_mut() {
                Some(run) if run.0 + run.1 == region.start => run.1 += region.length,
                _ => runs.push((region.start, region.length)),
            }
        }
        runs
    }
}

/// The plan of each L of the enhanced type, and that of the short type.
pub fn each_type(plan: impl Fn(u8) -> Plan) -> Vec<Plan> {
    let mut plans: Vec<Plan> = LENGTHS.iter().map(|&length| plan(length)).collect();
    plans.push(plan(16).in_short());
    plans
}

pub fn region_record(region: &Region) -> Vec<u8> {
    let mut record = vec![2];
    record.extend((region.start as u32).to_le_bytes());
    record.extend((region.length as u32).to_le_bytes());
    record.push(region.rights);
    record
}

pub fn parameter_record(parameter: &Parameter) -> Vec<u8> {
    let mut record = vec![3];
    record.extend(parameter.number.to_le_bytes());
    record.extend(parameter.address.to_le_bytes());
    record.push(parameter.size);
    record
}

pub fn item_record(item: &Item) -> Vec<u8> {
    let mut record = vec![4, item.code, item.octets.len() as u8];
    record.extend(&item.octets);
    record.resize(35, 0);
    record
}

pub fn tolerance_record(failures: u8) -> Vec<u8> {
    vec![6, failures]
}

pub fn release_record(release: u8) -> Vec<u8> {
    vec![7, release]
}

pub fn region(start: u64, length: u64, rights: u8) -> Region {
    Region {
        start,
        length,
        rights,
    }
}

pub fn parameter(number: u16, address: u32, size: u8) -> Parameter {
    Parameter {
        number,
        address,
        size,
    }
}

pub fn item(code: u8, octets: &[u8]) -> Item {
    Item {
        code,
        octets: octets.to_vec(),
    }
}
