//! The time that counts where two libraries are timed.

use std::ffi::{c_int, c_long};

/// C's `timespec`.
#[repr(C)]
struct Time {
    seconds: c_long,
    nanoseconds: c_long,
}

unsafe extern "C" {
    fn clock_gettime(clock: c_int, time: *mut Time) -> c_int;
}

/// Its number on Linux.
const CLOCK_THREAD_CPUTIME_ID: c_int = 3;

/// How long this thread has had a processor, in microseconds: the time that others
/// have it in between does not count. To ask takes a fraction of one.
pub fn processor_time() -> f64 {
    let mut time = Time {
        seconds: 0,
        nanoseconds: 0,
    };
    let failed = unsafe { clock_gettime(CLOCK_THREAD_CPUTIME_ID, &mut time) };
    assert_eq!(failed, 0, "this system does not tell the time of a thread");
    time.seconds as f64 * 1e6 + time.nanoseconds as f64 / 1e3
}
