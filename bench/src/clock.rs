//! The clock of a thread.
use std::time::Duration;

extern "C" {
    fn clock_gettime(clock: i32, time: *mut [i64; 2]) -> i32;
}

/// How long this thread has been on a processor, so that other work on the machine is not measured.
pub fn on_processor() -> Duration {
    const THREAD_CLOCK: i32 = 3;
    let mut time = [0; 2];
    // SAFETY: the C library's function writes seconds and nanoseconds, two words, where it is told.
    let status = unsafe { clock_gettime(THREAD_CLOCK, &mut time) };
    assert!(status == 0, "the thread's clock");
    Duration::new(time[0] as u64, time[1] as u32)
}
