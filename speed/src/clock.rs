//! Processor time, of this thread and of children that have ended. The only unsafe code: two calls of the C library, declared here
//! for 64-bit Linux.

use std::time::Duration;

#[repr(C)]
#[derive(Clone, Copy, Default)]
struct Time {
    seconds: i64,
    /// Nanoseconds or microseconds, as the call says.
    fraction: i64,
}

#[repr(C)]
#[derive(Default)]
struct Usage {
    user: Time,
    system: Time,
    others: [i64; 14],
}

const THREAD_CPUTIME: i32 = 3;
const CHILDREN: i32 = -1;

extern "C" {
    fn clock_gettime(clock: i32, time: *mut Time) -> i32;
    fn getrusage(who: i32, usage: *mut Usage) -> i32;
}

/// The processor time of this thread so far.
pub fn own() -> Duration {
    let mut time = Time::default();
    // SAFETY: the pointer is that of a value of the layout that the call fills.
    let status = unsafe { clock_gettime(THREAD_CPUTIME, &mut time) };
    assert_eq!(status, 0, "the clock of the thread");
    Duration::new(time.seconds as u64, time.fraction as u32)
}

/// The processor time, user and system, of all children that have ended and were waited for.
pub fn children() -> Duration {
    let mut usage = Usage::default();
    // SAFETY: as above.
    let status = unsafe { getrusage(CHILDREN, &mut usage) };
    assert_eq!(status, 0, "the clock of the children");
    let of = |time: Time| Duration::new(time.seconds as u64, time.fraction as u32 * 1000);
    of(usage.user) + of(usage.system)
}
