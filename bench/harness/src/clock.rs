//! The processor time of this thread, which other work on the machine does not count against as the time of day does.

/// Seconds and nanoseconds, as the C library has them on 64-bit Linux.
#[repr(C)]
struct TimeSpec {
    seconds: i64,
    nanoseconds: i64,
}

/// The clock of this thread's processor time on Linux.
const THREAD_CLOCK: i32 = 3;

extern "C" {
    fn clock_gettime(clock: i32, time: *mut TimeSpec) -> i32;
}

/// The nanoseconds that this thread has had.
fn now() -> i64 {
    let mut time = TimeSpec {
        seconds: 0,
        nanoseconds: 0,
    };
    // SAFETY: the pointer is that of a value which the call fills.
    let failed = unsafe { clock_gettime(THREAD_CLOCK, &mut time) };
    assert_eq!(failed, 0, "the clock is there");
    time.seconds * 1_000_000_000 + time.nanoseconds
}

/// The nanoseconds that something takes.
pub fn timed(mut work: impl FnMut()) -> f64 {
    let start = now();
    work();
    (now() - start) as f64
}
