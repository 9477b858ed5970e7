//! A list of differences applied to the first of two sheets (request 2 of document 02).
//!
//! It is read without a look at how a list is made, and strictly: each entry has
//! to fit the sheet, to say no more than changed, and to stand in order.

use super::difference::{CHANGED, GONE, NEW};
use super::kind::Kind;
use super::record::{number_of, Place, Record};
use super::sheet::Sheet;
use std::collections::BTreeMap;

const FORM: u8 = 0xF0;

/// One entry of a list.
struct Entry<'a> {
    form: u8,
    kind_octet: u8,
    kind: Kind,
    /// The bits of a changed record's fields.
    fields: u8,
    /// A key if the record is gone, else its body.
    octets: &'a [u8],
}

impl<'a> Entry<'a> {
    /// The entry that these octets begin with, and those behind it.
    fn split(octets: &'a [u8]) -> Option<(Entry<'a>, &'a [u8])> {
        let (&mark, behind) = octets.split_first()?;
        let (form, kind_octet) = (mark & FORM, mark & !FORM);
        let kind = Kind::of(kind_octet).filter(|&kind| kind != Kind::End)?;
        let body = kind.record_length() - 1;
        let (fields, behind, length) = match form {
            GONE => (0, behind, kind.key_length()),
            NEW => (0, behind, body),
            CHANGED => (*behind.first()?, &behind[1..], body),
            _ => return None,
        };
        let entry = Entry {
            form,
            kind_octet,
            kind,
            fields,
            octets: behind.get(..length)?,
        };
        Some((entry, &behind[length..]))
    }

    fn place(&self) -> Place {
        (self.kind, number_of(&self.octets[..self.kind.key_length()]))
    }

    /// Whether it may stand behind the entry before it: only a link may be told twice, as gone and then as new.
    fn follows(&self, before: &Entry) -> bool {
        let link_replaced =
            (before.form, self.form) == (GONE, NEW) && self.kind_octet != before.kind_octet;
        self.place() > before.place() || self.place() == before.place() && link_replaced
    }

    fn record(&self) -> Vec<u8> {
        [&[self.kind_octet], self.octets].concat()
    }

    /// Changes the records, if it fits them.
    fn apply(&self, records: &mut BTreeMap<Place, Vec<u8>>) -> Option<()> {
        let place = self.place();
        let old = records.remove(&place);
        match (self.form, old) {
            (GONE, Some(old)) if old[0] == self.kind_octet => (),
            (NEW, None) => drop(records.insert(place, self.record())),
            (CHANGED, Some(old)) if self.changes(&old) => {
                drop(records.insert(place, self.record()))
            }
            _ => return None,
        }
        Some(())
    }

    /// Whether a record of this kind becomes this one in just the fields that the bits say.
    fn changes(&self, old: &[u8]) -> bool {
        let new = self.record();
        let fields = Record::at_front(old)
            .zip(Record::at_front(&new))
            .map(|(old, new)| old.changed_fields(&new));
        old[0] == new[0] && self.fields != 0 && fields == Some(self.fields)
    }
}

/// The second sheet, if the octets are a list of differences that fits the first.
pub fn applied(first: &[u8], list: &[u8]) -> Option<Vec<u8>> {
    let mut records: BTreeMap<Place, Vec<u8>> = BTreeMap::new();
    for record in Sheet::read(first).ok()?.records() {
        records.insert(
            record.place(),
            [&[record.kind_octet()], record.body()].concat(),
        );
    }
    let (mut rest, mut before) = (list, None);
    while !rest.is_empty() {
        let (entry, behind) = Entry::split(rest)?;
        if before.map_or(false, |before| !entry.follows(&before)) {
            return None;
        }
        entry.apply(&mut records)?;
        (rest, before) = (behind, Some(entry));
    }
    let mut second: Vec<u8> = records.into_values().flatten().collect();
    second.push(0);
    Some(second)
}
