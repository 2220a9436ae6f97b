//! The time that this thread has had on a processor. The turns of other programs are left out.

#[repr(C)]
struct Time {
    seconds: i64,
    nanoseconds: i64,
}

unsafe extern "C" {
    fn clock_gettime(clock: i32, time: *mut Time) -> i32;
}

/// Linux's number for the thread's own clock.
const THREAD: i32 = 3;

fn now() -> f64 {
    let mut time = Time {
        seconds: 0,
        nanoseconds: 0,
    };
    // SAFETY: the time is laid out as Linux lays it out on x86-64, and outlives the call.
    let status = unsafe { clock_gettime(THREAD, &mut time) };
    assert_eq!(status, 0, "Linux has the clock");
    time.seconds as f64 * 1e9 + time.nanoseconds as f64
}

/// The nanoseconds that it takes.
pub fn timed(work: impl FnOnce()) -> f64 {
    let start = now();
    work();
    now() - start
}
