//! The processor time of the thread, which other work on the machine does not add to.

use std::time::Duration;

#[repr(C)]
struct Timespec {
    seconds: i64,
    nanoseconds: i64,
}

/// Of Linux, on every processor.
const THREAD_PROCESSOR_TIME: i32 = 3;

extern "C" {
    fn clock_gettime(clock: i32, time: *mut Timespec) -> i32;
}

pub fn processor_time() -> Duration {
    let mut time = Timespec { seconds: 0, nanoseconds: 0 };
    // The C library that Rust's own is linked with; it writes one `timespec`.
    let failed = unsafe { clock_gettime(THREAD_PROCESSOR_TIME, &mut time) };
    assert_eq!(failed, 0, "the thread has a clock");
    Duration::new(time.seconds as u64, time.nanoseconds as u32)
}
