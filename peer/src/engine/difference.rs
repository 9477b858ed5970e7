//! What changed between two sheets (request 2 of document 02).
//!
//! Both sheets' records are laid side by side by kind and key, which gives the
//! list's order; what stands at a place in one sheet or in both is its entry.

use super::answer::{self, done_at, refuse_at, Answer};
use super::record::{Place, Record};
use super::sheet::Sheet;
use std::collections::BTreeMap;

/// What an entry begins with, beside the record's kind.
pub const GONE: u8 = 0x40;
pub const NEW: u8 = 0x50;
pub const CHANGED: u8 = 0x60;

/// Writes the list if it has room, and else nothing.
pub fn difference(first: &[u8], second: &[u8], list: &mut [u8]) -> Result<Answer, Answer> {
    let first = Sheet::read(first)?;
    let second = Sheet::read(second).map_err(of_second)?;
    let entries = entries(&first, &second);
    let length = entries.len();
    if list.len() < length {
        return Err(refuse_at(answer::LIST_LONG, length));
    }
    list[..length].copy_from_slice(&entries);
    Ok(done_at(length as u32))
}

fn of_second(fault: Answer) -> Answer {
    Answer {
        number: fault.number + answer::OF_SECOND,
        ..fault
    }
}

/// What the first and the second sheet have at one place.
type Pair<'a> = [Option<Record<'a>>; 2];

fn entries(first: &Sheet, second: &Sheet) -> Vec<u8> {
    let mut pairs: BTreeMap<Place, Pair> = BTreeMap::new();
    for record in first.records() {
        pairs.entry(record.place()).or_default()[0] = Some(record);
    }
    for record in second.records() {
        pairs.entry(record.place()).or_default()[1] = Some(record);
    }
    let mut list = Vec::new();
    for pair in pairs.values() {
        put_entry(&mut list, pair);
    }
    list
}

fn put_entry(list: &mut Vec<u8>, pair: &Pair) {
    match pair {
        [Some(old), Some(new)] if old.kind_octet() == new.kind_octet() => {
            put_changed(list, old, new)
        }
        // "Where kind 01 becomes 05 or back: gone, then new."
        [old, new] => {
            old.iter().for_each(|old| put_gone(list, old));
            new.iter().for_each(|new| put_new(list, new));
        }
    }
}

fn put_gone(list: &mut Vec<u8>, old: &Record) {
    list.push(GONE | old.kind_octet());
    list.extend(old.key());
}

fn put_new(list: &mut Vec<u8>, new: &Record) {
    list.push(NEW | new.kind_octet());
    list.extend(new.body());
}

/// Nothing for a record that stayed as it was.
fn put_changed(list: &mut Vec<u8>, old: &Record, new: &Record) {
    let fields = old.changed_fields(new);
    if fields != 0 {
        list.extend([CHANGED | new.kind_octet(), fields]);
        list.extend(new.body());
    }
}
