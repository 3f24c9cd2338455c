//! The processor's time, which other processes don't lengthen as they do the clock's.

use std::ffi::{c_int, c_long};
use std::time::Duration;

/// The clock of a thread's own time on a processor.
const THREAD_TIME: c_int = 3;

/// `struct timespec`
#[repr(C)]
struct Time {
    seconds: i64,
    nanoseconds: i64,
}

/// The children that ended and were waited for.
const CHILDREN: c_int = -1;

/// `struct timeval`
#[repr(C)]
#[derive(Default)]
struct Used {
    seconds: i64,
    microseconds: i64,
}

/// `struct rusage`
#[repr(C)]
#[derive(Default)]
struct Usage {
    user: Used,
    system: Used,
    counts: [c_long; 14],
}

unsafe extern "C" {
    fn clock_gettime(clock: c_int, time: *mut Time) -> c_int;
    fn getrusage(who: c_int, usage: *mut Usage) -> c_int;
}

/// What this thread has used of the processor. Asking takes some hundred nanoseconds.
pub fn thread_time() -> Duration {
    let mut time = Time { seconds: 0, nanoseconds: 0 };
    // SAFETY: the time is laid out as the C library's.
    let status = unsafe { clock_gettime(THREAD_TIME, &mut time) };
    assert_eq!(status, 0, "the thread's time can't be read");
    Duration::new(time.seconds as u64, time.nanoseconds as u32)
}

/// Runs something, and says how much of the processor's time it took.
pub fn timed<T>(run: impl FnOnce() -> T) -> (T, Duration) {
    let start = thread_time();
    let result = run();
    (result, thread_time().saturating_sub(start))
}

/// What the children that have ended used of the processor, in their own code and in the system.
pub fn children_time() -> Duration {
    let mut usage = Usage::default();
    // SAFETY: the usage is laid out as the C library's.
    let status = unsafe { getrusage(CHILDREN, &mut usage) };
    assert_eq!(status, 0, "the children's time can't be read");
    let time = |used: &Used| Duration::new(used.seconds as u64, used.microseconds as u32 * 1_000);
    time(&usage.user) + time(&usage.system)
}
