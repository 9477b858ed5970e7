//! Records of a sheet as request 2 tells them apart: by kind, key and fields.

use super::kind::Kind;

/// Where a record stands in a list of differences: by kind, then by key.
pub type Place = (Kind, u32);

/// A record with its kind octet.
#[derive(Clone, Copy, Debug, PartialEq, Eq)]
pub struct Record<'a> {
    pub kind: Kind,
    octets: &'a [u8],
}

impl<'a> Record<'a> {
    /// The record that these octets begin with, if it is whole.
    pub fn at_front(octets: &'a [u8]) -> Option<Record<'a>> {
        let kind = Kind::of(*octets.first()?)?;
        let octets = octets.get(..kind.record_length())?;
        Some(Record { kind, octets })
    }

    /// The kind octet, which tells the two link records apart.
    pub fn kind_octet(&self) -> u8 {
        self.octets[0]
    }

    pub fn body(&self) -> &'a [u8] {
        &self.octets[1..]
    }

    pub fn key(&self) -> &'a [u8] {
        &self.body()[..self.kind.key_length()]
    }

    pub fn place(&self) -> Place {
        (self.kind, number_of(self.key()))
    }

    /// The fields of the body, in their order.
    pub fn fields(&self) -> impl Iterator<Item = &'a [u8]> {
        let mut rest = self.body();
        self.kind.fields().iter().map(move |&length| {
            let (field, behind) = rest.split_at(length);
            rest = behind;
            field
        })
    }

    /// A bit for each field in which the other record of this kind differs, bit 0 for the body's first.
    pub fn changed_fields(&self, other: &Record) -> u8 {
        let mut bits = 0;
        for (index, (ours, theirs)) in self.fields().zip(other.fields()).enumerate() {
            bits |= u8::from(ours != theirs) << index;
        }
        bits
    }
}

/// A key of up to four octets as a number, low octet first.
pub fn number_of(key: &[u8]) -> u32 {
    key.iter()
        .rev()
        .fold(0, |number, &octet| number << 8 | u32::from(octet))
}

/// Hands out a good sheet's records up to its end.
#[derive(Clone, Debug)]
pub struct Records<'a> {
    rest: &'a [u8],
}

impl<'a> Records<'a> {
    pub fn of(sheet: &'a [u8]) -> Records<'a> {
        Records { rest: sheet }
    }
}

impl<'a> Iterator for Records<'a> {
    type Item = Record<'a>;

    fn next(&mut self) -> Option<Record<'a>> {
        let record = Record::at_front(self.rest).filter(|record| record.kind != Kind::End)?;
        self.rest = &self.rest[record.kind.record_length()..];
        Some(record)
    }
}
