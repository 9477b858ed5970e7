//! Request 6: agreeing traces, differences, and the form of a trace.

use super::{exchange, replay};

/// L 8, one octet of memory that can always be read and written.
const SHEET: [u8; 15] = [1, 8, 0, 0, 2, 0, 0, 0, 0, 1, 0, 0, 0, 7, 0];
/// L 16, four octets.
const WIDE: [u8; 15] = [1, 16, 0, 0, 2, 0, 0, 0, 0, 4, 0, 0, 0, 7, 0];
const CONNECTED: [u8; 11] = [0x12, 2, 8, 0, 1, 0, 0, 0, 0, 0, 0];
const WIDE_CONNECTED: [u8; 11] = [0x12, 2, 16, 0, 1, 0, 0, 0, 0, 0, 0];

fn packed(number: u64, place: u64) -> u64 {
    number | place << 32
}

/// The trace, end state and end memory of these commands.
fn record(sheet: &[u8], kind: u8, state: [u8; 11], commands: &[Vec<u8>]) -> (Vec<u8>, [u8; 11]) {
    let (mut trace, mut state, mut memory) = (Vec::new(), state, vec![0; usize::from(sheet[9])]);
    for command in commands {
        let mut reply = vec![0; command.len()];
        let answer = exchange(sheet, &mut state, &mut memory, command, &mut reply);
        assert_eq!(answer as u32, 0);
        trace.push(kind);
        trace.extend(command);
        trace.extend(reply);
    }
    (trace, state)
}

fn wide_write(value: u8) -> Vec<u8> {
    vec![0x1E, 0, 0, 0, 0, 0x11, 4, 0, 0, 0, 0, 0, value, 2, 3, 4]
}

#[test]
fn agreeing_records_are_counted_and_stored() {
    let commands = [wide_write(1), vec![0x0D; 16], wide_write(9)];
    let (trace, end) = record(&WIDE, 0x22, WIDE_CONNECTED, &commands);
    let (mut state, mut memory) = (WIDE_CONNECTED, [0; 4]);
    let answer = replay(&WIDE, &mut state, &mut memory, &trace);
    assert_eq!((answer, state), (packed(0, 3), end));
    assert_eq!(memory, [9, 2, 3, 4]);
}

#[test]
fn an_empty_trace_agrees_unless_disabled() {
    let (mut state, mut memory) = (CONNECTED, [0]);
    assert_eq!(replay(&SHEET, &mut state, &mut memory, &[]), 0);
    let mut disabled = [0x12, 0, 8, 0, 0, 0, 0, 0, 0, 0, 0];
    assert_eq!(replay(&SHEET, &mut disabled, &mut memory, &[]), 5);
    assert_eq!(replay(&SHEET, &mut disabled, &mut memory, &[0]), 5);
    assert_eq!(replay(&SHEET, &mut disabled, &mut [], &[0]), 2);
    assert_eq!(replay(&SHEET, &mut [], &mut [], &[0]), 1);
    assert_eq!(replay(&SHEET[..14], &mut [], &mut [], &[0]), packed(11, 14));
}

#[test]
fn a_difference_leaves_state_and_memory_as_before_its_record() {
    let commands = [wide_write(1), vec![0x20; 16], wide_write(9)];
    let (trace, end) = record(&WIDE, 0x22, WIDE_CONNECTED, &commands);
    for octet in 0..16 {
        let mut changed = trace.clone();
        changed[2 * 33 + 17 + octet] ^= 0x40;
        let (mut state, mut memory) = (WIDE_CONNECTED, [0; 4]);
        let answer = replay(&WIDE, &mut state, &mut memory, &changed);
        assert_eq!(answer, packed(34, 2 * 64 + octet as u64));
        assert_eq!((state, memory), (end, [1, 2, 3, 4]));
    }
}

#[test]
fn the_form_is_checked_before_the_first_exchange() {
    let (trace, _) = record(&SHEET, 0x21, CONNECTED, &[vec![0x0D; 8], vec![0; 8]]);
    let refused = |trace: &[u8]| {
        let (mut state, mut memory) = (CONNECTED, [5]);
        let answer = replay(&SHEET, &mut state, &mut memory, trace);
        assert_eq!((state, memory), (CONNECTED, [5]));
        answer
    };
    for length in 1..trace.len() {
        if length != 17 {
            let start = if length < 17 { 0 } else { 17 };
            assert_eq!(refused(&trace[..length]), packed(33, start));
        }
    }
    for kind in 0..=255 {
        let mut changed = trace.clone();
        changed[17] = kind;
        // A difference in the first record is told only after the form.
        changed[9] ^= 1;
        let answer = match kind {
            0x21 => packed(34, 0),
            0x22..=0x25 => packed(32, 17),
            _ => packed(31, 17),
        };
        assert_eq!(refused(&changed), answer);
    }
}
