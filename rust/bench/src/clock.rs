//! The processor time of the calling thread: what other programs take on a busy machine is not in it.

use std::os::raw::{c_int, c_long};
use std::time::Duration;

#[repr(C)]
struct TimeSpec {
    seconds: c_long,
    nanoseconds: c_long,
}

extern "C" {
    fn clock_gettime(clock: c_int, time: *mut TimeSpec) -> c_int;
}

const THREAD_CPU_TIME: c_int = 3; // CLOCK_THREAD_CPUTIME_ID of Linux

pub fn cpu_time() -> Duration {
    let mut time = TimeSpec {
        seconds: 0,
        nanoseconds: 0,
    };
    // SAFETY: the record is laid out as the C library lays it out, and is lent for the call alone.
    let failed = unsafe { clock_gettime(THREAD_CPU_TIME, &mut time) };
    assert_eq!(failed, 0, "no processor time");
    Duration::new(time.seconds as u64, time.nanoseconds as u32)
}
