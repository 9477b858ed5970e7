//! Counts of old records that were turned, and of those that were refused (request 9).

use super::call::Inputs;
use super::states::{KNOWN_AT, LENGTH, LINK_AT, OLD_KIND, OLD_LENGTH};
use crate::engine::sheet::Sheet;
use crate::engine::state::State;
use std::fmt;

const TURNED: [&str; 5] = [
    "link 0",
    "link 1",
    "link 2",
    "link 3",
    "link 3 with MN known",
];
const REFUSED: [&str; 5] = [
    "the old record's length",
    "the old record's kind",
    "a field of the old record",
    "the new record's length",
    "more than one of these",
];

/// Turning calls, by the record's link, or by what was wrong.
#[derive(Default)]
pub struct Turned {
    turned: [u64; 5],
    refused: [u64; 5],
}

/// What was wrong in a turning call that answered 1, with so many octets for the new record.
fn cause(inputs: &Inputs, new_length: usize) -> usize {
    let old = &inputs.old;
    let mut of_kind = old.clone();
    if let Some(kind) = of_kind.first_mut() {
        *kind = OLD_KIND;
    }
    let sheet = Sheet::read(&inputs.sheet);
    let fields_good = sheet.map_or(false, |sheet| State::read_old(&of_kind, &sheet).is_some());
    let (length_good, new_good) = (old.len() == OLD_LENGTH, new_length == LENGTH);
    let kind_good = old.first() == Some(&OLD_KIND);
    match (length_good, kind_good, fields_good, new_good) {
        (false, _, _, true) => 0,
        (true, false, true, true) => 1,
        (true, true, false, true) => 2,
        (true, true, true, false) => 3,
        _ => 4,
    }
}

impl Turned {
    /// Counts a turning call with a good sheet; the state is as it was lent.
    pub fn add(&mut self, number: u32, state: &[u8], inputs: &Inputs) {
        match number {
            0 => {
                let known = usize::from(inputs.old[KNOWN_AT]);
                self.turned[usize::from(inputs.old[LINK_AT]) + known] += 1;
            }
            1 => self.refused[cause(inputs, state.len())] += 1,
            _ => (),
        }
    }

    fn rows(&self) -> Vec<(String, u64)> {
        let turned = TURNED.iter().zip(self.turned);
        let refused = REFUSED.iter().zip(self.refused);
        let turned = turned.map(|(name, count)| (format!("an old record of {name} turned"), count));
        let refused = refused.map(|(name, count)| (format!("a turn refused for {name}"), count));
        turned.chain(refused).collect()
    }

    /// The rows that no call has given yet.
    pub fn gaps(&self) -> Vec<String> {
        let rows = self.rows().into_iter();
        rows.filter(|row| row.1 == 0).map(|row| row.0).collect()
    }
}

impl fmt::Display for Turned {
    fn fmt(&self, formatter: &mut fmt::Formatter) -> fmt::Result {
        for (row, count) in self.rows() {
            writeln!(formatter, "{row}: {count}")?;
        }
        Ok(())
    }
}

#[cfg(test)]
mod tests {
    use super::*;
    use crate::trial::samples::sheet_p;
    use crate::trial::states::{counting_state, old_of, plain_state};

    fn lent(old: Vec<u8>) -> Inputs {
        Inputs {
            sheet: sheet_p().octets(),
            old,
            ..Inputs::default()
        }
    }

    #[test]
    fn each_link_is_missed_until_a_record_of_it_is_turned() {
        let mut turned = Turned::default();
        for link in 0..4 {
            let old = old_of(&plain_state(16, link));
            turned.add(0, &[0; 11], &lent(old));
        }
        turned.add(0, &[0; 11], &lent(old_of(&counting_state(16, 3, 4))));
        assert_eq!(turned.turned, [1; 5]);
        assert_eq!(turned.gaps().len(), 5);
    }

    #[test]
    fn each_cause_is_missed_until_a_record_is_refused_for_it() {
        let mut turned = Turned::default();
        let good = old_of(&plain_state(16, 2));
        let [mut kind, mut field, mut both] = [good.clone(), good.clone(), good.clone()];
        kind[0] = 0x12;
        field[4] = 0;
        both[..2].copy_from_slice(&[0x12, 9]);
        turned.add(1, &[0; 11], &lent(good[..9].to_vec()));
        turned.add(1, &[0; 11], &lent(kind));
        turned.add(1, &[0; 11], &lent(field));
        turned.add(1, &[0; 10], &lent(good));
        turned.add(1, &[0; 11], &lent(both));
        assert_eq!(turned.refused, [1; 5]);
        assert_eq!(turned.gaps().len(), 5);
    }
}
