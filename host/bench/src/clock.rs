//! The two clocks of a bench, in seconds.

use std::sync::OnceLock;
use std::time::Instant;

#[repr(C)]
struct Timespec {
    seconds: i64,
    nanoseconds: i64,
}

extern "C" {
    fn clock_gettime(clock: i32, to: *mut Timespec) -> i32;
}

/// CLOCK_THREAD_CPUTIME_ID of Linux.
const THREAD: i32 = 3;

/// What this thread has spent on a processor.
pub fn of_thread() -> f64 {
    let mut now = Timespec { seconds: 0, nanoseconds: 0 };
    // SAFETY: `now` is a timespec as 64-bit Linux has it, and lives through the call.
    let answer = unsafe { clock_gettime(THREAD, &mut now) };
    assert_eq!(answer, 0, "the thread has a clock");
    now.seconds as f64 + now.nanoseconds as f64 * 1e-9
}

/// What has passed, for work that several threads share.
pub fn on_the_wall() -> f64 {
    static START: OnceLock<Instant> = OnceLock::new();
    START.get_or_init(Instant::now).elapsed().as_secs_f64()
}
