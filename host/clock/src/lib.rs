//! Processor time of the calling thread: on a shared machine the wall clock says little.
use std::time::Duration;

/// C's `struct timespec` on 64-bit Linux.
#[repr(C)]
struct Timespec {
    seconds: i64,
    nanoseconds: i64,
}

#[expect(unsafe_code, reason = "std has no clock of a thread's time")]
mod libc {
    // SAFETY: POSIX's clock_gettime: a clockid_t, which is an int, and a pointer to a timespec give an int.
    unsafe extern "C" {
        pub(super) fn clock_gettime(clock: i32, time: *mut super::Timespec) -> i32;
    }
}

const CLOCK_THREAD_CPUTIME_ID: i32 = 3;

/// The time that this thread has used so far.
pub fn now() -> Duration {
    let mut time = Timespec {
        seconds: 0,
        nanoseconds: 0,
    };
    #[expect(unsafe_code, reason = "std has no clock of a thread's time")]
    // SAFETY: the pointer is to a live timespec of this frame, which the call fills and does not keep.
    let status = unsafe { libc::clock_gettime(CLOCK_THREAD_CPUTIME_ID, &raw mut time) };
    assert_eq!(status, 0, "this system has no clock of a thread's time");
    Duration::new(time.seconds as u64, time.nanoseconds as u32)
}

/// What a function gives, and the time it took.
pub fn timed<T>(run: impl FnOnce() -> T) -> (T, Duration) {
    let start = now();
    let given = run();
    (given, now().saturating_sub(start))
}
