//! The check and the run in tight ordinary Rust as C functions, so that the bench can call them beside the
//! proved ones.

mod run;
mod tight;

use std::slice;

/// The check of a whole file: returns its number, and stores its place and its steps.
///
/// # Safety
///
/// `file` points to `len` bytes, and `place` and `steps` to memory that may be written; none is null.
#[no_mangle]
pub unsafe extern "C" fn ref_check(file: *const u8, len: usize, place: *mut u64, steps: *mut u32) -> u32 {
    let answer = tight::check(slice::from_raw_parts(file, len));
    *place = answer.place;
    *steps = answer.steps;
    answer.number
}

/// The run of a whole file into a lent room: returns its number.
///
/// # Safety
///
/// `file` points to `len` bytes and `room` to `room_len` bytes that may be written; neither is null, and they do
/// not overlap.
#[no_mangle]
pub unsafe extern "C" fn ref_run(file: *const u8, len: usize, room: *mut u8, room_len: usize) -> u32 {
    run::run(slice::from_raw_parts(file, len), slice::from_raw_parts_mut(room, room_len))
}
