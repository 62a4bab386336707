//! The library under comparison, on slices and numbers.
//!
//! Built with MOXILTRA_ARCHIVE set it is the entries of that archive, otherwise
//! the stand-in: the reference itself.

use crate::answers;
use crate::checker;
use crate::entry;
use crate::upcoming;

/// The entries of `plantour.h`.
#[derive(Clone, Copy)]
pub struct Library {
    pub plan_tour: PlanTour,
    pub upcoming_offset: UpcomingOffset,
    pub read_answer: ReadAnswer,
    pub check_tour: CheckTour,
}

/// On plan, answer block, run-in and loop.
pub type PlanTour = fn(&[u8], &mut [u8], &mut [u8], &mut [u8]) -> u32;

/// On the length of the run-in, the length of the loop, and the step.
pub type UpcomingOffset = fn(u64, u64, u64) -> u64;

/// On text, block, run-in and loop.
pub type ReadAnswer = fn(&[u8], &mut [u8], &mut [u8], &mut [u8]) -> u32;

/// On plan, run-in, loop and block.
pub type CheckTour = fn(&[u8], &[u8], &[u8], &mut [u8]) -> u32;

pub const REFERENCE: Library = Library {
    plan_tour: entry::plan_tour,
    upcoming_offset: upcoming::upcoming_offset,
    read_answer: answers::read_answer,
    check_tour: checker::check_tour,
};

#[cfg(not(archive))]
pub const LIBRARY: Library = REFERENCE;
#[cfg(not(archive))]
pub const NAME: &str = "stand-in";

#[cfg(archive)]
pub const LIBRARY: Library = Library {
    plan_tour: archive::plan_tour,
    upcoming_offset: archive::upcoming_offset,
    read_answer: archive::read_answer,
    check_tour: archive::check_tour,
};
#[cfg(archive)]
pub const NAME: &str = env!("MOXILTRA_ARCHIVE");

#[cfg(archive)]
mod archive {
    mod c {
        unsafe extern "C" {
            pub fn plan_tour(
                plan: *const u8,
                plan_len: usize,
                answer: *mut u8,
                answer_len: usize,
                runin: *mut u8,
                runin_len: usize,
                cycle: *mut u8,
                cycle_len: usize,
            ) -> u32;
            pub fn upcoming_offset(runin_length: u64, loop_length: u64, t: u64) -> u64;
            pub fn read_answer(
                text: *const u8,
                text_len: usize,
                block: *mut u8,
                block_len: usize,
                runin: *mut u8,
                runin_len: usize,
                cycle: *mut u8,
                cycle_len: usize,
            ) -> u32;
            pub fn check_tour(
                plan: *const u8,
                plan_len: usize,
                runin: *const u8,
                runin_len: usize,
                cycle: *const u8,
                cycle_len: usize,
                block: *mut u8,
                block_len: usize,
            ) -> u32;
        }
    }

    pub fn plan_tour(plan: &[u8], answer: &mut [u8], runin: &mut [u8], cycle: &mut [u8]) -> u32 {
        unsafe {
            c::plan_tour(
                plan.as_ptr(),
                plan.len(),
                answer.as_mut_ptr(),
                answer.len(),
                runin.as_mut_ptr(),
                runin.len(),
                cycle.as_mut_ptr(),
                cycle.len(),
            )
        }
    }

    pub fn upcoming_offset(runin_length: u64, loop_length: u64, t: u64) -> u64 {
        unsafe { c::upcoming_offset(runin_length, loop_length, t) }
    }

    pub fn read_answer(text: &[u8], block: &mut [u8], runin: &mut [u8], cycle: &mut [u8]) -> u32 {
        unsafe {
            c::read_answer(
                text.as_ptr(),
                text.len(),
                block.as_mut_ptr(),
                block.len(),
                runin.as_mut_ptr(),
                runin.len(),
                cycle.as_mut_ptr(),
                cycle.len(),
            )
        }
    }

    pub fn check_tour(plan: &[u8], runin: &[u8], cycle: &[u8], block: &mut [u8]) -> u32 {
        unsafe {
            c::check_tour(
                plan.as_ptr(),
                plan.len(),
                runin.as_ptr(),
                runin.len(),
                cycle.as_ptr(),
                cycle.len(),
                block.as_mut_ptr(),
                block.len(),
            )
        }
    }
}
