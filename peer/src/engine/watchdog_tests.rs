//! Request 5: with MN known, MN has to follow and SN has to be the RSN; else neither is asked.

use super::exchange;

/// L 8 without memory, version 3, profile 4.
const SHEET: [u8; 5] = [1, 8, 3, 4, 0];
const UNKNOWN: [u8; 11] = [0x12, 3, 8, 1, 5, 0, 0, 0, 0, 0, 0];

/// Reply and state after one command of this code and WDT.
fn after(state: [u8; 11], code: u8, wdt: u8) -> ([u8; 8], [u8; 11]) {
    let (mut state, mut reply) = (state, [0xEE; 8]);
    let command = [code, wdt, 0, 0, 3, 2, 5, 4];
    let answer = exchange(&SHEET, &mut state, &mut [], &command, &mut reply);
    assert_eq!(answer, 0);
    (reply, state)
}

/// Every last MN and RSN with every WDT: 16 x 16 x 256.
#[test]
fn link_3_is_kept_by_the_next_mn_and_the_same_sn_alone() {
    for last_mn in 0..16 {
        for rsn in 0..16 {
            let start = [0x12, 3, 8, 1, 5, 1, last_mn, rsn, 0, 0, 0];
            let asked = rsn << 4 | (last_mn + 1) % 16;
            for wdt in 0..=255 {
                let (mn, next_rsn) = (wdt & 15, (rsn + 1) % 16);
                let (reply, state) = after(start, 0x00, wdt);
                if wdt == asked {
                    assert_eq!(reply, [0, next_rsn << 4 | mn, 4, 0, 0, 0, 0, 0]);
                    assert_eq!(state, [0x12, 3, 8, 1, 5, 1, mn, next_rsn, 0, 0, 0]);
                } else {
                    assert_eq!(reply, [0, 0, 5, 0xC0, 0, 0, 0, 0]);
                    assert_eq!(state, [0x12, 2, 8, 0, 5, 0, 0, 0, 0, 12, 0]);
                }
            }
        }
    }
}

#[test]
fn a_wrong_sn_comes_before_every_code() {
    let start = [0x12, 3, 8, 1, 5, 1, 7, 4, 9, 0, 0];
    for code in 0..=255 {
        for wdt in [0x38, 0x58, 0xC8, 0x78, 0x88, 0x49, 0x47, 0x59, 0x74] {
            let (reply, state) = after(start, code, wdt);
            assert_eq!(reply, [code, 0, 5, 0xC0, 0, 0, 0, 0]);
            assert_eq!(state, [0x12, 2, 8, 0, 5, 0, 0, 0, 9, 12, 0]);
        }
    }
}

#[test]
fn any_wdt_makes_mn_known() {
    for wdt in 0..=255 {
        let (reply, state) = after(UNKNOWN, 0x00, wdt);
        assert_eq!(reply, [0, 0x10 | wdt & 15, 4, 0, 0, 0, 0, 0]);
        assert_eq!(state, [0x12, 3, 8, 1, 5, 1, wdt & 15, 1, 0, 0, 0]);
    }
}

#[test]
fn no_wdt_is_asked_outside_link_3() {
    for wdt in 0..=255 {
        for (link, com_time) in [(1, 0), (2, 5)] {
            let start = [0x12, link, 8, 0, com_time, 0, 0, 0, 0, 0, 0];
            assert_eq!(after(start, 0x00, wdt), ([0, 0, 4, 0, 0, 0, 0, 0], start));
        }
        let entered = [0x12, 3, 8, 0, 5, 0, 0, 0, 0, 0, 0];
        let (reply, state) = after([0x12, 2, 8, 0, 5, 0, 0, 0, 0, 0, 0], 0x0D, wdt);
        assert_eq!((reply[1], state), (wdt & 15, entered));
        let (reply, state) = after([0x12, 1, 8, 0, 0, 0, 0, 0, 0, 0, 0], 0x0E, wdt);
        assert_eq!((reply[1], state), (wdt & 15, entered));
    }
}

/// A master that copies each RSN stays; one that has stopped reading falls out at once.
#[test]
fn a_master_that_stops_reading_is_lost() {
    let (mut state, mut rsn) = (UNKNOWN, 9);
    for count in 0..40 {
        let (reply, next) = after(state, 0x00, rsn << 4 | count % 16);
        assert_eq!((reply[3], next[1]), (0, 3));
        (state, rsn) = (next, reply[1] >> 4);
    }
    let stale = rsn << 4;
    let (reply, next) = after(state, 0x00, stale | 40 % 16);
    assert_eq!((reply[3], next[1]), (0, 3));
    let (reply, next) = after(next, 0x00, stale | 41 % 16);
    assert_eq!((reply[3], next[1]), (0xC0, 2));
}
