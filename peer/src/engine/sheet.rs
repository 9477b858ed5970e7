//! The device sheet: its reader with every fault, and its records.

use super::answer::{self, refuse_at, Answer};
use super::frame::Frame;
use super::kind::{Kind, ITEM_RECORD, LINK_RECORD, PARAMETER_RECORD, REGION_RECORD};
use super::octets::{number_16, number_32};
use super::record::Records;
use super::region::{find_span, Region, RIGHTS};

const SHEET_LIMIT: usize = 2048;
const MEMORY_LIMIT: u64 = 65_536;
const REGION_LIMIT: usize = 32;
const PARAMETER_LIMIT: usize = 64;
const ITEM_LIMIT: usize = 32;
const PARAMETER_SIZE_LIMIT: u8 = 56;
const ITEM_LENGTH_LIMIT: u8 = 32;
const TOLERANCE_LIMIT: u8 = 3;
/// The releases of the drive rules (request 13); the first one ignores what a command does not name.
const FIRST_RELEASE: u8 = 1;
const SECOND_RELEASE: u8 = 2;
const ADDRESSES: u64 = 1 << 32;

/// A parameter record.
#[derive(Clone, Copy, Debug, PartialEq, Eq)]
pub struct Parameter {
    pub number: u16,
    pub address: u32,
    pub size: u8,
}

/// A sheet that has been read: the octets and how many records of each kind.
///
/// Records have fixed lengths and a fixed order, so their places follow from
/// the counts and nothing is copied.
pub struct Sheet<'a> {
    octets: &'a [u8],
    regions: usize,
    parameters: usize,
    items: usize,
    tolerance: Option<u8>,
    release: Option<u8>,
    memory: u64,
}

impl<'a> Sheet<'a> {
    /// Reads record by record from the front and tells the first fault.
    pub fn read(octets: &'a [u8]) -> Result<Sheet<'a>, Answer> {
        if octets.len() > SHEET_LIMIT {
            return Err(refuse_at(answer::CUT, 0));
        }
        let mut sheet = Sheet {
            octets,
            regions: 0,
            parameters: 0,
            items: 0,
            tolerance: None,
            release: None,
            memory: 0,
        };
        let mut place = 0;
        let mut last = None;
        while last != Some(Kind::End) {
            let kind = sheet
                .read_record(place, last)
                .map_err(|number| refuse_at(number, place))?;
            place += kind.record_length();
            last = Some(kind);
        }
        if place < octets.len() {
            return Err(refuse_at(answer::OUT_OF_PLACE, place));
        }
        Ok(sheet)
    }

    fn read_record(&mut self, place: usize, last: Option<Kind>) -> Result<Kind, u32> {
        let octet = *self.octets.get(place).ok_or(answer::CUT)?;
        let kind = Kind::of(octet).ok_or(answer::UNKNOWN_KIND)?;
        if !kind.in_place(last) {
            return Err(answer::OUT_OF_PLACE);
        }
        let record = self
            .octets
            .get(place..place + kind.record_length())
            .ok_or(answer::CUT)?;
        match kind {
            Kind::Link => check_link(record)?,
            Kind::Region => self.take_region(region_of(record))?,
            Kind::Parameter => self.take_parameter(parameter_of(record))?,
            Kind::Item => self.take_item(record)?,
            Kind::Tolerance => self.take_tolerance(record[1])?,
            Kind::Release => self.take_release(record[1])?,
            Kind::End => (),
        }
        Ok(kind)
    }

    fn take_region(&mut self, region: Region) -> Result<(), u32> {
        if region.length < 1 || region.end() > ADDRESSES || region.rights & !RIGHTS != 0 {
            return Err(answer::RANGE);
        }
        if self.regions == REGION_LIMIT || self.memory + region.length > MEMORY_LIMIT {
            return Err(answer::TOO_MUCH);
        }
        let before = self.regions().next_back();
        if before.map_or(false, |before| region.start < before.end()) {
            return Err(answer::ORDER);
        }
        self.regions += 1;
        self.memory += region.length;
        Ok(())
    }

    fn take_parameter(&mut self, parameter: Parameter) -> Result<(), u32> {
        if !(1..=PARAMETER_SIZE_LIMIT).contains(&parameter.size) {
            return Err(answer::RANGE);
        }
        if self.parameters == PARAMETER_LIMIT {
            return Err(answer::TOO_MUCH);
        }
        let before = self.parameters().next_back();
        if before.map_or(false, |before| parameter.number <= before.number) {
            return Err(answer::ORDER);
        }
        let size = usize::from(parameter.size);
        find_span(self.regions(), parameter.address, size).ok_or(answer::SPAN)?;
        self.parameters += 1;
        Ok(())
    }

    fn take_item(&mut self, record: &[u8]) -> Result<(), u32> {
        let length = record[2];
        if !(1..=ITEM_LENGTH_LIMIT).contains(&length) {
            return Err(answer::RANGE);
        }
        if record[3 + usize::from(length)..]
            .iter()
            .any(|&octet| octet != 0)
        {
            return Err(answer::RANGE);
        }
        if self.items == ITEM_LIMIT {
            return Err(answer::TOO_MUCH);
        }
        let before = self.items().next_back();
        if before.map_or(false, |(code, _)| record[1] <= code) {
            return Err(answer::ORDER);
        }
        self.items += 1;
        Ok(())
    }

    fn take_tolerance(&mut self, failures: u8) -> Result<(), u32> {
        if failures > TOLERANCE_LIMIT {
            return Err(answer::RANGE);
        }
        self.tolerance = Some(failures);
        Ok(())
    }

    fn take_release(&mut self, release: u8) -> Result<(), u32> {
        if !(FIRST_RELEASE..=SECOND_RELEASE).contains(&release) {
            return Err(answer::RANGE);
        }
        self.release = Some(release);
        Ok(())
    }

    /// Where the octets of command and reply stand, by the link record's kind.
    pub fn frame(&self) -> &'static Frame {
        Frame::of_link(self.octets[0])
    }

    /// L, the length of command and reply.
    pub fn pdu_length(&self) -> u8 {
        self.octets[1]
    }

    /// The version a CONNECT has to name.
    pub fn version(&self) -> u8 {
        self.octets[2]
    }

    /// The profile a CONNECT has to name.
    pub fn profile(&self) -> u8 {
        self.octets[3]
    }

    /// The sum of the regions' lengths.
    pub fn memory_length(&self) -> usize {
        self.memory as usize
    }

    /// How many failures in a row are allowed; "none without" the record.
    pub fn tolerance(&self) -> u8 {
        self.tolerance.unwrap_or(0)
    }

    /// What the tolerance record says, if the sheet has one.
    pub fn tolerance_record(&self) -> Option<u8> {
        self.tolerance
    }

    /// Whether what a command does not name has to be zero: "without it release 1 holds".
    pub fn asks_zeros(&self) -> bool {
        self.release == Some(SECOND_RELEASE)
    }

    /// What the release record says, if the sheet has one.
    pub fn release_record(&self) -> Option<u8> {
        self.release
    }

    /// All records in sheet order, the end apart.
    pub fn records(&self) -> Records<'a> {
        Records::of(self.octets)
    }

    /// The regions in sheet order.
    pub fn regions(&self) -> impl DoubleEndedIterator<Item = Region> + 'a {
        let octets = self.octets;
        let end = LINK_RECORD + self.regions * REGION_RECORD;
        octets[LINK_RECORD..end]
            .chunks_exact(REGION_RECORD)
            .map(region_of)
    }

    /// The parameters in sheet order.
    pub fn parameters(&self) -> impl DoubleEndedIterator<Item = Parameter> + 'a {
        let start = LINK_RECORD + self.regions * REGION_RECORD;
        let octets = self.octets;
        octets[start..start + self.parameters * PARAMETER_RECORD]
            .chunks_exact(PARAMETER_RECORD)
            .map(parameter_of)
    }

    /// The ID items in sheet order, as code and octets without the zeros behind.
    pub fn items(&self) -> impl DoubleEndedIterator<Item = (u8, &'a [u8])> {
        let start = LINK_RECORD + self.regions * REGION_RECORD + self.parameters * PARAMETER_RECORD;
        let octets = self.octets;
        octets[start..start + self.items * ITEM_RECORD]
            .chunks_exact(ITEM_RECORD)
            .map(|record| (record[1], &record[3..3 + usize::from(record[2])]))
    }

    /// The parameter of that number.
    pub fn find_parameter(&self, number: u16) -> Option<Parameter> {
        self.parameters()
            .find(|parameter| parameter.number == number)
    }

    /// The octets of the ID item of that code.
    pub fn find_item(&self, code: u8) -> Option<&'a [u8]> {
        self.items()
            .find(|&(other, _)| other == code)
            .map(|(_, octets)| octets)
    }
}

fn check_link(record: &[u8]) -> Result<(), u32> {
    if Frame::of_link(record[0]).lengths.contains(&record[1]) {
        Ok(())
    } else {
        Err(answer::RANGE)
    }
}

fn region_of(record: &[u8]) -> Region {
    Region {
        start: u64::from(number_32(record, 1)),
        length: u64::from(number_32(record, 5)),
        rights: record[9],
    }
}

fn parameter_of(record: &[u8]) -> Parameter {
    Parameter {
        number: number_16(record, 1),
        address: number_32(record, 3),
        size: record[7],
    }
}
