//! Counts of what lists of differences have told, and of the buffers they were given (request 2).

use super::call::Inputs;
use crate::engine;
use crate::engine::kind::Kind;
use std::collections::BTreeMap;
use std::fmt;

const GONE: u8 = 0x40;
const NEW: u8 = 0x50;
const CHANGED: u8 = 0x60;
/// The kinds of records that a list can tell.
const KINDS: [u8; 7] = [1, 2, 3, 4, 5, 6, 7];
const LISTS: [&str; 8] = [
    "no difference, in no buffer",
    "no difference, in a longer buffer",
    "a list that just fits",
    "a list in a longer buffer",
    "a list in no buffer",
    "a list in a buffer one octet too short",
    "a fault of the first sheet beside one of the second",
    "a fault of the second sheet beside no buffer",
];

/// Entries by their first octet, with the bits of changed fields, and lists by the buffer.
#[derive(Default)]
pub struct Differences {
    entries: BTreeMap<(u8, u8), u64>,
    lists: [u64; 8],
}

/// The bits that a changed record of this kind can have: a key stays, and so does the short type's L.
fn field_bits(kind: u8) -> &'static [u8] {
    match kind {
        1 => &[1, 2, 3, 4, 5, 6, 7],
        6 | 7 => &[1],
        _ => &[2, 4, 6],
    }
}

/// Which of the lists a call is, if it is one of them.
fn list_row(answer: u64, inputs: &Inputs) -> Option<usize> {
    let (number, place, room) = (answer as u32, (answer >> 32) as usize, inputs.list.len());
    match (number, place) {
        (0, 0) if room == 0 => Some(0),
        (0, 0) => Some(1),
        (0, _) if room == place => Some(2),
        (0, _) => Some(3),
        (28, _) if room == 0 => Some(4),
        (28, _) if room + 1 == place => Some(5),
        (11..=17, _) if engine::sheet(&inputs.second) != 0 => Some(6),
        (21..=27, _) if room == 0 => Some(7),
        _ => None,
    }
}

impl Differences {
    /// Counts a call that left this in the list.
    pub fn add(&mut self, answer: u64, inputs: &Inputs, list: &[u8]) {
        if let Some(row) = list_row(answer, inputs) {
            self.lists[row] += 1;
        }
        if answer as u32 == 0 {
            self.add_entries(&list[..(answer >> 32) as usize]);
        }
    }

    /// The list is one that gave the second sheet, so that its entries are whole.
    fn add_entries(&mut self, list: &[u8]) {
        let mut rest = list;
        while let Some(&mark) = rest.first() {
            let kind = Kind::of(mark & 15).unwrap_or(Kind::End);
            let (fields, length) = match mark & 0xF0 {
                GONE => (0, 1 + kind.key_length()),
                NEW => (0, kind.record_length()),
                _ => (rest[1], 1 + kind.record_length()),
            };
            *self.entries.entry((mark, fields)).or_insert(0) += 1;
            rest = &rest[length..];
        }
    }

    fn rows(&self) -> Vec<(String, u64)> {
        let lists = LISTS.iter().zip(self.lists);
        let mut rows: Vec<(String, u64)> =
            lists.map(|(&name, count)| (name.into(), count)).collect();
        let count = |key| self.entries.get(&key).copied().unwrap_or(0);
        for kind in KINDS {
            rows.push((format!("record {kind:02} gone"), count((GONE | kind, 0))));
            rows.push((format!("record {kind:02} new"), count((NEW | kind, 0))));
            for &bits in field_bits(kind) {
                let name = format!("record {kind:02} changed in fields {bits:03b}");
                rows.push((name, count((CHANGED | kind, bits))));
            }
        }
        rows
    }

    /// The rows that no call has given yet.
    pub fn gaps(&self) -> Vec<String> {
        let rows = self.rows().into_iter();
        rows.filter(|row| row.1 == 0)
            .map(|row| format!("in a difference: {}", row.0))
            .collect()
    }
}

impl fmt::Display for Differences {
    fn fmt(&self, formatter: &mut fmt::Formatter) -> fmt::Result {
        for (row, count) in self.rows() {
            writeln!(formatter, "in a difference: {row}: {count}")?;
        }
        Ok(())
    }
}

#[cfg(test)]
mod tests {
    use super::*;

    fn lent(room: usize) -> Inputs {
        Inputs {
            list: vec![0; room],
            ..Inputs::default()
        }
    }

    #[test]
    fn each_entry_is_missed_until_a_list_has_it() {
        let mut differences = Differences::default();
        let all = differences.gaps().len();
        let list = [
            &[0x41, 0x55, 16, 3, 4][..],
            &[0x62, 6, 1, 0, 0, 0, 2, 0, 0, 0, 7],
            &[0x43, 7, 0, 0x44, 9, 0x66, 1, 2, 0x57, 2],
        ];
        differences.add_entries(&list.concat());
        assert_eq!(all - differences.gaps().len(), 7);
        assert_eq!(differences.entries.values().sum::<u64>(), 7);
    }

    #[test]
    fn each_list_is_missed_until_a_call_gives_it() {
        let mut differences = Differences::default();
        let at = |number: u64, place: u64| number | place << 32;
        for (answer, room) in [
            (0, 0),
            (0, 9),
            (at(28, 9), 0),
            (at(28, 9), 8),
            (at(28, 9), 7),
        ] {
            differences.add(answer, &lent(room), &[]);
        }
        differences.add(at(0, 1), &lent(1), &[0x46]);
        differences.add(at(0, 1), &lent(2), &[0x46, 0]);
        differences.add(at(11, 0), &lent(2), &[0, 0]);
        differences.add(at(21, 0), &lent(0), &[]);
        assert_eq!(differences.lists, [1; 8]);
    }
}
