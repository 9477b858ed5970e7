//! Exports the engine under C names of choice; not part of the library itself.
//!
//! A caller has to lend as many octets as each length says, in distinct
//! buffers; a null pointer is allowed beside length 0.

/// The octets of a buffer lent for reading.
///
/// # Safety
/// `octets` points to `length` readable octets, or `length` is 0.
pub unsafe fn lent<'a>(octets: *const u8, length: usize) -> &'a [u8] {
    if length == 0 {
        &[]
    } else {
        std::slice::from_raw_parts(octets, length)
    }
}

/// The octets of a buffer lent for writing.
///
/// # Safety
/// `octets` points to `length` writable octets of its own, or `length` is 0.
pub unsafe fn lent_mut<'a>(octets: *mut u8, length: usize) -> &'a mut [u8] {
    if length == 0 {
        &mut []
    } else {
        std::slice::from_raw_parts_mut(octets, length)
    }
}

/// Exports `$engine`'s functions: sheet, lengths, reset, enable, turn, exchange, replay, difference, version.
macro_rules! export {
    ($engine:path: $sheet:ident $lengths:ident $reset:ident $enable:ident $turn:ident $exchange:ident $replay:ident
     $difference:ident $version:ident) => {
        use $crate::export::{lent, lent_mut};
        use $engine as exported;

        #[no_mangle]
        pub unsafe extern "C" fn $sheet(sheet: *const u8, length: usize) -> u64 {
            exported::sheet(lent(sheet, length))
        }

        #[no_mangle]
        pub unsafe extern "C" fn $lengths(sheet: *const u8, length: usize) -> u64 {
            exported::lengths(lent(sheet, length))
        }

        #[no_mangle]
        pub unsafe extern "C" fn $reset(
            sheet: *const u8,
            sheet_length: usize,
            state: *mut u8,
            state_length: usize,
        ) -> u64 {
            exported::reset(lent(sheet, sheet_length), lent_mut(state, state_length))
        }

        #[no_mangle]
        pub unsafe extern "C" fn $enable(
            sheet: *const u8,
            sheet_length: usize,
            state: *mut u8,
            state_length: usize,
        ) -> u64 {
            exported::enable(lent(sheet, sheet_length), lent_mut(state, state_length))
        }

        #[no_mangle]
        pub unsafe extern "C" fn $turn(
            sheet: *const u8,
            sheet_length: usize,
            old: *const u8,
            old_length: usize,
            state: *mut u8,
            state_length: usize,
        ) -> u64 {
            exported::turn(
                lent(sheet, sheet_length),
                lent(old, old_length),
                lent_mut(state, state_length),
            )
        }

        #[no_mangle]
        pub unsafe extern "C" fn $exchange(
            sheet: *const u8,
            sheet_length: usize,
            state: *mut u8,
            state_length: usize,
            memory: *mut u8,
            memory_length: usize,
            command: *const u8,
            command_length: usize,
            reply: *mut u8,
            reply_length: usize,
        ) -> u64 {
            exported::exchange(
                lent(sheet, sheet_length),
                lent_mut(state, state_length),
                lent_mut(memory, memory_length),
                lent(command, command_length),
                lent_mut(reply, reply_length),
            )
        }

        #[no_mangle]
        pub unsafe extern "C" fn $replay(
            sheet: *const u8,
            sheet_length: usize,
            state: *mut u8,
            state_length: usize,
            memory: *mut u8,
            memory_length: usize,
            trace: *const u8,
            trace_length: usize,
        ) -> u64 {
            exported::replay(
                lent(sheet, sheet_length),
                lent_mut(state, state_length),
                lent_mut(memory, memory_length),
                lent(trace, trace_length),
            )
        }

        #[no_mangle]
        pub unsafe extern "C" fn $difference(
            first: *const u8,
            first_length: usize,
            second: *const u8,
            second_length: usize,
            list: *mut u8,
            list_length: usize,
        ) -> u64 {
            exported::difference(
                lent(first, first_length),
                lent(second, second_length),
                lent_mut(list, list_length),
            )
        }

        #[no_mangle]
        pub extern "C" fn $version() -> u64 {
            exported::version()
        }
    };
}
