//! The reference as a static library with the exported names of `plantour.h`.

use reference::{answers, checker, entry, upcoming};
use std::slice::{from_raw_parts, from_raw_parts_mut};

/// # Safety
/// Each pointer is to so many bytes as the length behind it says, and no two of
/// the four stretches overlap.
#[unsafe(no_mangle)]
pub unsafe extern "C" fn plan_tour(
    plan: *const u8,
    plan_len: usize,
    answer: *mut u8,
    answer_len: usize,
    runin: *mut u8,
    runin_len: usize,
    cycle: *mut u8,
    cycle_len: usize,
) -> u32 {
    unsafe {
        entry::plan_tour(
            from_raw_parts(plan, plan_len),
            from_raw_parts_mut(answer, answer_len),
            from_raw_parts_mut(runin, runin_len),
            from_raw_parts_mut(cycle, cycle_len),
        )
    }
}

#[unsafe(no_mangle)]
pub extern "C" fn upcoming_offset(runin_length: u64, loop_length: u64, t: u64) -> u64 {
    upcoming::upcoming_offset(runin_length, loop_length, t)
}

/// # Safety
/// As for `plan_tour`.
#[unsafe(no_mangle)]
pub unsafe extern "C" fn read_answer(
    text: *const u8,
    text_len: usize,
    block: *mut u8,
    block_len: usize,
    runin: *mut u8,
    runin_len: usize,
    cycle: *mut u8,
    cycle_len: usize,
) -> u32 {
    unsafe {
        answers::read_answer(
            from_raw_parts(text, text_len),
            from_raw_parts_mut(block, block_len),
            from_raw_parts_mut(runin, runin_len),
            from_raw_parts_mut(cycle, cycle_len),
        )
    }
}

/// # Safety
/// Each pointer is to so many bytes as the length behind it says, and the block
/// overlaps none of the other three stretches.
#[unsafe(no_mangle)]
pub unsafe extern "C" fn check_tour(
    plan: *const u8,
    plan_len: usize,
    runin: *const u8,
    runin_len: usize,
    cycle: *const u8,
    cycle_len: usize,
    block: *mut u8,
    block_len: usize,
) -> u32 {
    unsafe {
        checker::check_tour(
            from_raw_parts(plan, plan_len),
            from_raw_parts(runin, runin_len),
            from_raw_parts(cycle, cycle_len),
            from_raw_parts_mut(block, block_len),
        )
    }
}
