//! Replay of a trace (request 6 of document 02).

use super::answer::{self, done_at, refuse, refuse_at, Answer};
use super::exchange::decide;
use super::sheet::Sheet;
use super::state::{Link, State};

/// The trace kinds 21 to 25 hex stand for these L.
const LENGTHS: [u8; 5] = [8, 16, 32, 48, 64];
const FIRST_KIND: u8 = 0x21;
/// Octets of a reply that a place can tell apart.
const OCTETS: usize = 64;
/// The longest trace; any octet of its records' replies has a place.
const LONGEST: usize = (1 << 30) - 1;

/// One command and the reply that the trace holds.
struct Record<'a> {
    command: &'a [u8],
    reply: &'a [u8],
}

/// Holds the trace and its place, and hands out one record at a time.
struct Reader<'a> {
    trace: &'a [u8],
    place: usize,
    pdu_length: u8,
}

impl<'a> Reader<'a> {
    fn next(&mut self) -> Result<Option<Record<'a>>, Answer> {
        let place = self.place;
        match self.trace.get(place) {
            None => Ok(None),
            Some(&kind) => match self.record(kind) {
                Ok(record) => Ok(Some(record)),
                Err(number) => Err(refuse_at(number, place)),
            },
        }
    }

    fn record(&mut self, kind: u8) -> Result<Record<'a>, u32> {
        let index = usize::from(kind.wrapping_sub(FIRST_KIND));
        let length = *LENGTHS.get(index).ok_or(answer::TRACE_KIND)?;
        if length != self.pdu_length {
            return Err(answer::TRACE_LENGTH);
        }
        let length = usize::from(length);
        let trace = self.trace;
        let body = &trace[self.place + 1..];
        if body.len() < 2 * length {
            return Err(answer::TRACE_CUT);
        }
        self.place += 1 + 2 * length;
        Ok(Record {
            command: &body[..length],
            reply: &body[length..2 * length],
        })
    }
}

/// Checks everything, then exchanges record by record up to a difference.
pub fn replay(
    sheet: &[u8],
    state: &mut [u8],
    memory: &mut [u8],
    trace: &[u8],
) -> Result<Answer, Answer> {
    let sheet = Sheet::read(sheet)?;
    let pdu_length = sheet.pdu_length();
    let mut current = State::read(state, &sheet).ok_or_else(|| refuse(answer::STATE))?;
    if memory.len() != sheet.memory_length() {
        return Err(refuse(answer::MEMORY));
    }
    if current.link == Link::Disabled {
        return Err(refuse(answer::DISABLED));
    }
    if too_long(trace.len()) {
        return Err(refuse(answer::TRACE_LONG));
    }
    check_form(trace, pdu_length)?;
    let mut reader = Reader {
        trace,
        place: 0,
        pdu_length,
    };
    let mut records = 0;
    while let Some(record) = reader.next()? {
        let outcome = decide(&sheet, current, memory, record.command);
        if let Some(octet) = first_difference(&outcome.reply, record.reply) {
            return Ok(refuse_at(answer::DIFFERENT, records * OCTETS + octet));
        }
        outcome.store(state, memory, record.command);
        current = outcome.state;
        records += 1;
    }
    Ok(done_at(records as u32))
}

fn too_long(octets: usize) -> bool {
    octets > LONGEST
}

/// The whole trace's form, before the first exchange.
fn check_form(trace: &[u8], pdu_length: u8) -> Result<(), Answer> {
    let mut reader = Reader {
        trace,
        place: 0,
        pdu_length,
    };
    while reader.next()?.is_some() {}
    Ok(())
}

fn first_difference(ours: &[u8], theirs: &[u8]) -> Option<usize> {
    ours.iter()
        .zip(theirs)
        .position(|(our, their)| our != their)
}

#[cfg(test)]
mod tests {
    use super::{too_long, OCTETS};

    #[test]
    fn every_place_in_the_longest_trace_fits_an_answer() {
        assert!(!too_long(0x3FFF_FFFF) && too_long(0x4000_0000));
        let most_records = 0x3FFF_FFFF / (1 + 2 * 8);
        assert!(u32::try_from(most_records * OCTETS).is_ok());
    }
}
