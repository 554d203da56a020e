//! The same calls for a host in C: a slice is a pointer and a length, null with length 0 allowed.

use crate::interface;
use std::slice;

/// # Safety
/// Each pointer stands for as many readable bytes as its length says, the room's for writable ones.
#[no_mangle]
pub unsafe extern "C" fn vex_load(
    table: *const u8,
    table_len: usize,
    program: *const u8,
    program_len: usize,
    room: *mut u8,
    room_len: usize,
) -> u32 {
    interface::load(given(table, table_len), given(program, program_len), lent(room, room_len))
}

/// # Safety
/// As for `vex_load`.
#[no_mangle]
pub unsafe extern "C" fn vex_check(
    table: *const u8,
    table_len: usize,
    program: *const u8,
    program_len: usize,
    room: *mut u8,
    room_len: usize,
) -> u32 {
    interface::check(given(table, table_len), given(program, program_len), lent(room, room_len))
}

/// # Safety
/// As for `vex_load`; state, memory and room are writable and do not overlap anything.
#[no_mangle]
pub unsafe extern "C" fn vex_run(
    table: *const u8,
    table_len: usize,
    program: *const u8,
    program_len: usize,
    state: *mut u8,
    state_len: usize,
    memory: *mut u8,
    memory_len: usize,
    landing: *const u8,
    landing_len: usize,
    n: u32,
    room: *mut u8,
    room_len: usize,
) -> u32 {
    interface::run(
        given(table, table_len),
        given(program, program_len),
        lent(state, state_len),
        lent(memory, memory_len),
        given(landing, landing_len),
        n,
        lent(room, room_len),
    )
}

/// # Safety
/// As for `vex_load`; program and room are writable and do not overlap anything.
#[no_mangle]
pub unsafe extern "C" fn vex_assemble(
    text: *const u8,
    text_len: usize,
    program: *mut u8,
    program_len: usize,
    room: *mut u8,
    room_len: usize,
) -> u32 {
    interface::assemble(given(text, text_len), lent(program, program_len), lent(room, room_len))
}

// A slice may not be made from a null pointer, not even an empty one.
unsafe fn given<'a>(pointer: *const u8, length: usize) -> &'a [u8] {
    if length == 0 {
        &[]
    } else {
        slice::from_raw_parts(pointer, length)
    }
}

unsafe fn lent<'a>(pointer: *mut u8, length: usize) -> &'a mut [u8] {
    if length == 0 {
        &mut []
    } else {
        slice::from_raw_parts_mut(pointer, length)
    }
}

#[cfg(test)]
mod tests {
    use super::*;
    use std::ptr::{null, null_mut};

    #[test]
    fn null_with_length_0() {
        let nothing = unsafe { vex_load(null(), 0, null(), 0, null_mut(), 0) };
        assert_eq!(nothing, 1);
        let nothing = unsafe { vex_assemble(null(), 0, null_mut(), 0, null_mut(), 0) };
        assert_eq!(nothing, 2);
        let table = [1u8, 4, 4, 2, 1, 0, 1, 2, 2, 3, 1];
        let program = [0xC0u8, 4, 0, 0];
        let (mut state, mut room) = ([0u8; 2888], [9u8; 12]);
        let number = unsafe {
            vex_run(
                table.as_ptr(),
                table.len(),
                program.as_ptr(),
                program.len(),
                state.as_mut_ptr(),
                state.len(),
                null_mut(),
                0,
                null(),
                0,
                5,
                room.as_mut_ptr(),
                room.len(),
            )
        };
        assert_eq!(number, 255);
        assert_eq!(room, [0, 0, 0, 255, 0, 0, 0, 0, 0, 0, 0, 0]);
    }
}
