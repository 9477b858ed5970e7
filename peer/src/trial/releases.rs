//! Counts of sheets by what became of a record of a release (request 13).

use std::fmt;

const ROWS: [&str; 10] = [
    "a good sheet with a release of 1",
    "a good sheet with a release of 2",
    "a release cut",
    "a release out of range",
    "a release without an end behind it",
    "two releases",
    "a tolerance behind a release",
    "another record behind a release",
    "a release before the link record",
    "a release behind the end",
];
const RELEASE: u8 = 7;
const TOLERANCE: u8 = 6;
const END: u8 = 0;
const CUT: u64 = 11;
const PLACE: u64 = 13;
const RANGE: u64 = 14;
/// The octets of a record, by its kind.
const LENGTHS: [usize; 8] = [1, 4, 10, 8, 35, 4, 2, 2];

/// The last of the good records before this place, if there is one.
fn record_before(sheet: &[u8], place: usize) -> Option<&[u8]> {
    let (mut at, mut last) = (0, None);
    while at < place {
        let record = sheet.get(at..at + LENGTHS[usize::from(sheet[at])])?;
        at += record.len();
        last = Some(record);
    }
    last
}

/// What the release record of a good sheet says.
pub fn release_of(sheet: &[u8]) -> Option<u8> {
    let record = record_before(sheet, sheet.len() - 1)?;
    (record[0] == RELEASE).then(|| record[1])
}

/// Sheets that were judged, by their first fault.
#[derive(Default)]
pub struct Releases {
    counts: [u64; ROWS.len()],
}

/// The row of a sheet with this answer, if it tells of a release.
fn row_of(sheet: &[u8], answer: u64) -> Option<usize> {
    let (number, place) = (answer & 0xFFFF_FFFF, (answer >> 32) as usize);
    if number == 0 {
        return release_of(sheet).map(|release| usize::from(release) - 1);
    }
    // A sheet that is too long is not looked at.
    if sheet.len() > 2048 {
        return None;
    }
    let before = record_before(sheet, place).map(|record| record[0]);
    match (number, before, sheet.get(place).copied()) {
        (CUT, _, Some(RELEASE)) => Some(2),
        (RANGE, _, Some(RELEASE)) => Some(3),
        (CUT, Some(RELEASE), None) => Some(4),
        (PLACE, Some(RELEASE), Some(RELEASE)) => Some(5),
        (PLACE, Some(RELEASE), Some(TOLERANCE)) => Some(6),
        (PLACE, Some(RELEASE), _) => Some(7),
        (PLACE, None, Some(RELEASE)) => Some(8),
        (PLACE, Some(END), Some(RELEASE)) => Some(9),
        _ => None,
    }
}

impl Releases {
    /// Counts a sheet that both engines gave this answer.
    pub fn add(&mut self, sheet: &[u8], answer: u64) {
        if let Some(row) = row_of(sheet, answer) {
            self.counts[row] += 1;
        }
    }

    /// The rows that no sheet has given yet.
    pub fn gaps(&self) -> Vec<String> {
        let rows = ROWS.iter().zip(self.counts);
        let missing = rows.filter(|row| row.1 == 0);
        missing.map(|row| row.0.to_string()).collect()
    }
}

impl fmt::Display for Releases {
    fn fmt(&self, formatter: &mut fmt::Formatter) -> fmt::Result {
        for (row, count) in ROWS.iter().zip(self.counts) {
            writeln!(formatter, "{row}: {count}")?;
        }
        Ok(())
    }
}

#[cfg(test)]
mod tests {
    use super::*;
    use crate::engine;

    #[test]
    fn each_row_is_missed_until_a_sheet_gives_it() {
        let mut releases = Releases::default();
        let sheets: [&[u8]; ROWS.len()] = [
            &[1, 16, 3, 4, 7, 1, 0],
            &[5, 16, 3, 4, 6, 1, 7, 2, 0],
            &[1, 16, 3, 4, 7],
            &[1, 16, 3, 4, 7, 3, 0],
            &[1, 16, 3, 4, 7, 2],
            &[1, 16, 3, 4, 7, 1, 7, 1, 0],
            &[1, 16, 3, 4, 7, 1, 6, 7, 0],
            &[1, 16, 3, 4, 7, 1, 5, 7, 0],
            &[7, 1, 1, 16, 3, 4, 0],
            &[1, 16, 3, 4, 0, 7],
        ];
        for (row, sheet) in sheets.into_iter().enumerate() {
            assert_eq!(releases.gaps(), ROWS[row..]);
            releases.add(sheet, engine::sheet(sheet));
        }
        for other in [
            &[1, 16, 3, 4, 0][..],
            &[1, 16, 3, 4, 6, 7],
            &[1, 16, 3, 4, 6, 7, 0],
            &[1, 16, 7, 2, 0],
            &[1, 16, 3, 7],
            &[7; 2049],
            &[0],
            &[],
        ] {
            releases.add(other, engine::sheet(other));
        }
        assert_eq!(releases.counts, [1; ROWS.len()]);
    }
}
