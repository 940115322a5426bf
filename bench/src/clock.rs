//! The processor time of this thread: what other programs take of the machine in between isn't counted.

#[cfg(target_os = "linux")]
pub fn nanoseconds() -> f64 {
    const THREAD_CPUTIME: i32 = 3;
    #[repr(C)]
    struct Time {
        seconds: std::ffi::c_long,
        nanoseconds: std::ffi::c_long,
    }
    unsafe extern "C" {
        fn clock_gettime(clock: i32, time: *mut Time) -> i32;
    }
    let mut time = Time {
        seconds: 0,
        nanoseconds: 0,
    };
    // SAFETY: the pointer is good for one `timespec`, which has this layout.
    let status = unsafe { clock_gettime(THREAD_CPUTIME, &mut time) };
    assert_eq!(status, 0, "the thread has a clock");
    time.seconds as f64 * 1e9 + time.nanoseconds as f64
}

/// Elsewhere the time that has passed.
#[cfg(not(target_os = "linux"))]
pub fn nanoseconds() -> f64 {
    use std::{sync::LazyLock, time::Instant};
    static START: LazyLock<Instant> = LazyLock::new(Instant::now);
    START.elapsed().as_nanos() as f64
}
