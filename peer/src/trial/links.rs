//! Counts of sheets by what became of a link record of the short type (request 7).

use super::wire::{ENHANCED, SHORT};
use std::fmt;

const ROWS: [&str; 7] = [
    "a good sheet of kind 05",
    "kind 05 cut",
    "kind 05 with another L than 16",
    "kind 05 behind kind 01",
    "kind 01 behind kind 05",
    "kind 05 twice",
    "kind 05 behind other records",
];
const LINK_RECORD: usize = 4;
const CUT: u64 = 11;
const PLACE: u64 = 13;
const RANGE: u64 = 14;

/// Sheets that were judged, by their first fault.
#[derive(Default)]
pub struct Links {
    counts: [u64; 7],
}

/// The row of a sheet with this answer, if it tells of a link record of the short type.
fn row_of(sheet: &[u8], answer: u64) -> Option<usize> {
    let (number, place) = (answer & 0xFFFF_FFFF, (answer >> 32) as usize);
    let (first, there) = (*sheet.first()?, *sheet.get(place)?);
    let second = place == LINK_RECORD;
    match (number, first, there) {
        (0, first, _) if first == SHORT.link_kind => Some(0),
        (CUT, _, there) if there == SHORT.link_kind => Some(1),
        (RANGE, _, there) if there == SHORT.link_kind => Some(2),
        (PLACE, first, there)
            if second && (first, there) == (ENHANCED.link_kind, SHORT.link_kind) =>
        {
            Some(3)
        }
        (PLACE, first, there)
            if second && (first, there) == (SHORT.link_kind, ENHANCED.link_kind) =>
        {
            Some(4)
        }
        (PLACE, first, there) if second && (first, there) == (SHORT.link_kind, SHORT.link_kind) => {
            Some(5)
        }
        (PLACE, _, there) if there == SHORT.link_kind => Some(6),
        _ => None,
    }
}

impl Links {
    /// Counts a sheet that both engines gave this answer.
    pub fn add(&mut self, sheet: &[u8], answer: u64) {
        if let Some(row) = row_of(sheet, answer) {
            self.counts[row] += 1;
        }
    }

    /// The rows that no sheet has given yet.
    pub fn gaps(&self) -> Vec<String> {
        let rows = ROWS.iter().zip(self.counts);
        let missing = rows.filter(|row| row.1 == 0);
        missing.map(|row| row.0.to_string()).collect()
    }
}

impl fmt::Display for Links {
    fn fmt(&self, formatter: &mut fmt::Formatter) -> fmt::Result {
        for (row, count) in ROWS.iter().zip(self.counts) {
            writeln!(formatter, "{row}: {count}")?;
        }
        Ok(())
    }
}

#[cfg(test)]
mod tests {
    use super::*;
    use crate::engine;

    #[test]
    fn each_row_is_missed_until_a_sheet_gives_it() {
        let mut links = Links::default();
        let sheets: [&[u8]; 7] = [
            &[5, 16, 3, 4, 0],
            &[5, 16, 3],
            &[5, 32, 3, 4, 0],
            &[1, 16, 3, 4, 5],
            &[5, 16, 3, 4, 1],
            &[5, 16, 3, 4, 5],
            &[1, 16, 3, 4, 6, 1, 5],
        ];
        for (row, sheet) in sheets.into_iter().enumerate() {
            assert_eq!(links.gaps(), ROWS[row..]);
            links.add(sheet, engine::sheet(sheet));
        }
        for other in [
            &[1, 16, 3, 4, 0][..],
            &[1, 17, 3, 4],
            &[1, 16, 3],
            &[0],
            &[],
        ] {
            links.add(other, engine::sheet(other));
        }
        assert_eq!(links.counts, [1; 7]);
    }
}
