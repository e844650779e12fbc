//! The processor time of this thread: what else runs on the machine is not counted, though it may slow the thread down.

#[repr(C)]
struct Time {
    seconds: i64,
    nanoseconds: i64,
}

unsafe extern "C" {
    fn clock_gettime(clock: i32, time: *mut Time) -> i32;
}

/// CLOCK_THREAD_CPUTIME_ID of Linux.
const OF_THIS_THREAD: i32 = 3;

pub fn seconds() -> f64 {
    let mut time = Time { seconds: 0, nanoseconds: 0 };
    // SAFETY: the pointer is that of a place for the time.
    let failed = unsafe { clock_gettime(OF_THIS_THREAD, &mut time) };
    assert!(failed == 0, "the clock can be read");
    time.seconds as f64 + 1e-9 * time.nanoseconds as f64
}
