//! The functions of the archive under test, called through the C boundary.
//!
//! A slice always has as many octets as the length that goes with its pointer.
#![allow(unsafe_code)]

use crate::trial::engines::Engine;

extern "C" {
    fn t24_sheet(sheet: *const u8, sheet_len: usize) -> u64;
    fn t24_lengths(sheet: *const u8, sheet_len: usize) -> u64;
    fn t24_reset(sheet: *const u8, sheet_len: usize, state: *mut u8, state_len: usize) -> u64;
    fn t24_enable(sheet: *const u8, sheet_len: usize, state: *mut u8, state_len: usize) -> u64;
    fn t24_turn(
        sheet: *const u8,
        sheet_len: usize,
        old: *const u8,
        old_len: usize,
        state: *mut u8,
        state_len: usize,
    ) -> u64;
    fn t24_exchange(
        sheet: *const u8,
        sheet_len: usize,
        state: *mut u8,
        state_len: usize,
        memory: *mut u8,
        memory_len: usize,
        command: *const u8,
        command_len: usize,
        reply: *mut u8,
        reply_len: usize,
    ) -> u64;
    fn t24_replay(
        sheet: *const u8,
        sheet_len: usize,
        state: *mut u8,
        state_len: usize,
        memory: *mut u8,
        memory_len: usize,
        trace: *const u8,
        trace_len: usize,
    ) -> u64;
    fn t24_difference(
        first: *const u8,
        first_len: usize,
        second: *const u8,
        second_len: usize,
        list: *mut u8,
        list_len: usize,
    ) -> u64;
    fn t24_version() -> u64;
}

/// The engine of the archive.
pub const T24: Engine = Engine {
    sheet,
    lengths,
    reset,
    enable,
    turn,
    exchange,
    replay,
    difference,
    version,
};

fn sheet(sheet: &[u8]) -> u64 {
    unsafe { t24_sheet(sheet.as_ptr(), sheet.len()) }
}

fn lengths(sheet: &[u8]) -> u64 {
    unsafe { t24_lengths(sheet.as_ptr(), sheet.len()) }
}

fn reset(sheet: &[u8], state: &mut [u8]) -> u64 {
    unsafe { t24_reset(sheet.as_ptr(), sheet.len(), state.as_mut_ptr(), state.len()) }
}

fn enable(sheet: &[u8], state: &mut [u8]) -> u64 {
    unsafe { t24_enable(sheet.as_ptr(), sheet.len(), state.as_mut_ptr(), state.len()) }
}

fn turn(sheet: &[u8], old: &[u8], state: &mut [u8]) -> u64 {
    unsafe {
        t24_turn(
            sheet.as_ptr(),
            sheet.len(),
            old.as_ptr(),
            old.len(),
            state.as_mut_ptr(),
            state.len(),
        )
    }
}

fn exchange(
    sheet: &[u8],
    state: &mut [u8],
    memory: &mut [u8],
    command: &[u8],
    reply: &mut [u8],
) -> u64 {
    unsafe {
        t24_exchange(
            sheet.as_ptr(),
            sheet.len(),
            state.as_mut_ptr(),
            state.len(),
            memory.as_mut_ptr(),
            memory.len(),
            command.as_ptr(),
            command.len(),
            reply.as_mut_ptr(),
            reply.len(),
        )
    }
}

fn replay(sheet: &[u8], state: &mut [u8], memory: &mut [u8], trace: &[u8]) -> u64 {
    unsafe {
        t24_replay(
            sheet.as_ptr(),
            sheet.len(),
            state.as_mut_ptr(),
            state.len(),
            memory.as_mut_ptr(),
            memory.len(),
            trace.as_ptr(),
            trace.len(),
        )
    }
}

fn difference(first: &[u8], second: &[u8], list: &mut [u8]) -> u64 {
    unsafe {
        t24_difference(
            first.as_ptr(),
            first.len(),
            second.as_ptr(),
            second.len(),
            list.as_mut_ptr(),
            list.len(),
        )
    }
}

fn version() -> u64 {
    unsafe { t24_version() }
}
