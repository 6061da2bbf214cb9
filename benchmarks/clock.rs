//! Processor time, by the C library.

use std::ffi::{c_int, c_long};
use std::time::Duration;

#[repr(C)]
#[derive(Clone, Copy, Default)]
struct TimeValue {
    seconds: c_long,
    microseconds: c_long,
}

#[repr(C)]
#[derive(Default)]
struct Usage {
    user: TimeValue,
    system: TimeValue,
    others: [c_long; 14],
}

extern "C" {
    fn getrusage(who: c_int, usage: *mut Usage) -> c_int;
}

const CHILDREN: c_int = -1;

/// The processor time, of user and of system, that all programs took that were started here and have ended.
pub fn time_of_children() -> Duration {
    let mut usage = Usage::default();
    // SAFETY: `Usage` is laid out as the `struct rusage` of 64-bit Linux, and the pointer is good for the call
    unsafe { getrusage(CHILDREN, &mut usage) };
    duration(usage.user) + duration(usage.system)
}

fn duration(time: TimeValue) -> Duration {
    Duration::from_secs(time.seconds as u64) + Duration::from_micros(time.microseconds as u64)
}
