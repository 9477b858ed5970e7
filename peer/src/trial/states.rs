//! State records, valid and damaged, of now and from before request 9.

use super::plan::Plan;
use super::random::Random;

pub const DISABLED: u8 = 0;
pub const DISCONNECTED: u8 = 1;
pub const ASYNC: u8 = 2;
pub const SYNC: u8 = 3;

/// Octets of the record, and of the one from before request 9.
pub const LENGTH: usize = 11;
pub const OLD_LENGTH: usize = 10;
pub const KIND: u8 = 0x12;
pub const OLD_KIND: u8 = 0x11;

/// The octets of the record that the generators look at.
pub const LINK_AT: usize = 1;
pub const KNOWN_AT: usize = 5;
pub const LAST_MN_AT: usize = 6;
pub const RSN_AT: usize = 7;
pub const FAILURES_AT: usize = 10;

/// A plain record of that link: com_time 1 if connected, all else zero.
pub fn plain_state(pdu_length: u8, link: u8) -> Vec<u8> {
    let com_time = u8::from(link >= ASYNC);
    vec![KIND, link, pdu_length, 0, com_time, 0, 0, 0, 0, 0, 0]
}

/// A record of link 3 whose watchdog counters are known.
pub fn counting_state(pdu_length: u8, last_mn: u8, rsn: u8) -> Vec<u8> {
    let mut record = plain_state(pdu_length, SYNC);
    record[KNOWN_AT] = 1;
    record[LAST_MN_AT] = last_mn;
    record[RSN_AT] = rsn;
    record
}

/// The same after so many failures.
pub fn failing_state(pdu_length: u8, last_mn: u8, rsn: u8, failures: u8) -> Vec<u8> {
    let mut record = counting_state(pdu_length, last_mn, rsn);
    record[FAILURES_AT] = failures;
    record
}

/// What a record of now was before request 9.
pub fn old_of(record: &[u8]) -> Vec<u8> {
    let mut old = record[..OLD_LENGTH].to_vec();
    old[0] = OLD_KIND;
    old
}

/// Whether the watchdog asks for a WDT in this state.
pub fn asks_wdt(state: &[u8]) -> bool {
    state[LINK_AT] == SYNC && state[KNOWN_AT] == 1
}

/// A valid record of a link that is not Disabled, latches, dual and failures included.
pub fn random_state(random: &mut Random, plan: &Plan) -> Vec<u8> {
    let link = random.pick(&[DISCONNECTED, ASYNC, ASYNC, SYNC, SYNC, SYNC]);
    let mut record = plain_state(plan.pdu_length, link);
    if link >= ASYNC {
        record[4] = random.pick(&[1, 2, 3, 255]);
    }
    if link == SYNC {
        record[3] = u8::from(record[4] >= 2 && random.chance(50));
        if random.chance(70) {
            record[KNOWN_AT] = 1;
            record[LAST_MN_AT] = random.octet() & 15;
            record[RSN_AT] = random.octet() & 15;
            let allowed = plan.allowed();
            let between = random.below(u64::from(allowed) + 1) as u8;
            record[FAILURES_AT] = random.pick(&[0, between, allowed]);
        }
    }
    record[8] = random.pick(&[0, 0, 0, 8, 9, 10, 12]);
    record[9] = random.pick(&[0, 0, 12]);
    record
}

/// A record that differs from a good one in one to three octets.
pub fn damaged_state(random: &mut Random, good: &[u8]) -> Vec<u8> {
    let mut record = good.to_vec();
    for _ in 0..1 + random.below(3) {
        let at = random.index(record.len());
        record[at] = match random.below(4) {
            0 => random.octet(),
            1 => record[at].wrapping_add(1),
            2 => record[at].wrapping_sub(1),
            _ => random.pick(&[0, 1, 2, 8, 10, 12, 15, 16]),
        };
    }
    record
}

/// A good record but for its count: one past what the sheet allows, or one where none is allowed.
pub fn state_past(random: &mut Random, plan: &Plan) -> Vec<u8> {
    let mut record = random_state(random, plan);
    record[FAILURES_AT] = if asks_wdt(&record) {
        plan.allowed() + 1
    } else {
        1 + random.below(4) as u8
    };
    record
}

#[cfg(test)]
mod tests {
    use super::*;
    use crate::engine::sheet::Sheet;
    use crate::engine::state::State;
    use crate::trial::samples::tolerant;

    /// Whether the record is valid, and whether its old form is.
    fn valid(record: &[u8], plan: &Plan) -> (bool, bool) {
        let octets = plan.octets();
        match Sheet::read(&octets) {
            Ok(sheet) => {
                let old = State::read_old(&old_of(record), &sheet);
                (State::read(record, &sheet).is_some(), old.is_some())
            }
            Err(_) => (false, false),
        }
    }

    #[test]
    fn random_states_are_valid_up_to_each_bound_and_not_past_it() {
        let mut random = Random::new(1);
        for tolerance in [None, Some(0), Some(1), Some(2), Some(3)] {
            let plan = tolerant(48, tolerance);
            let mut seen = [false; 4];
            for _ in 0..1000 {
                let record = random_state(&mut random, &plan);
                assert_eq!(valid(&record, &plan), (true, true), "{record:?}");
                seen[usize::from(record[FAILURES_AT])] = true;
                let record = state_past(&mut random, &plan);
                assert_eq!(valid(&record, &plan), (false, true), "{record:?}");
            }
            assert!((0..4).all(|count| seen[usize::from(count)] == (count <= plan.allowed())));
        }
    }
}
