//! The processor time of this thread (Linux).

extern "C" {
    fn clock_gettime(clock: i32, time: *mut [i64; 2]) -> i32;
}

const CLOCK_THREAD_CPUTIME_ID: i32 = 3;

/// Nanoseconds that this thread has run.
pub fn now() -> i64 {
    let mut time = [0; 2];
    // SAFETY: a timespec is two 64-bit numbers on 64-bit Linux, seconds and nanoseconds.
    let failed = unsafe { clock_gettime(CLOCK_THREAD_CPUTIME_ID, &mut time) };
    assert_eq!(failed, 0, "the clock is there");
    time[0] * 1_000_000_000 + time[1]
}
