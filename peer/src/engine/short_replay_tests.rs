//! Request 7: traces of the short type, whose records are of kind 22 hex, as L is 16.

use super::short_bench_tests::{command, sheet, MEMORY, SYNC};
use super::{exchange, replay};

#[test]
fn a_trace_agrees_or_differs_at_each_octet() {
    let (mut state, mut memory, mut trace) = (SYNC, MEMORY, Vec::new());
    let mut write = command(0x02, &[8, 0, 8, 1, 2, 3, 4, 5, 6, 7, 8]);
    let mut unknown = command(0x1D, &[0, 0x11, 1]);
    (write[15], unknown[15]) = (0x48, 0x59);
    for asked in [write, unknown, command(0x00, &[])] {
        let mut reply = [0; 16];
        exchange(&sheet(), &mut state, &mut memory, &asked, &mut reply);
        trace.push(0x22);
        trace.extend(asked);
        trace.extend(reply);
    }
    let replayed = |trace: &[u8]| {
        let (mut state, mut memory) = (SYNC, MEMORY);
        let answer = replay(&sheet(), &mut state, &mut memory, trace);
        (answer, state, memory)
    };
    assert_eq!(replayed(&trace), (3 << 32, state, memory));
    for record in 0..3 {
        for octet in 0..16 {
            let mut changed = trace.clone();
            changed[record * 33 + 17 + octet] ^= 0x40;
            let place = (record * 64 + octet) as u64;
            assert_eq!(replayed(&changed).0, 34 | place << 32);
        }
    }
    for kind in 0x21..=0x25 {
        trace[33] = kind;
        let answer = if kind == 0x22 { 3 << 32 } else { 32 | 33 << 32 };
        assert_eq!(replayed(&trace).0, answer);
    }
}
