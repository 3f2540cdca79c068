//! The processor time of a thread, which std does not tell.

#[repr(C)]
struct Moment {
    seconds: i64,
    nanoseconds: i64,
}

extern "C" {
    fn clock_gettime(clock: i32, at: *mut Moment) -> i32;
}

/// Seconds of this thread's processor time.
pub fn busy() -> f64 {
    let mut at = Moment { seconds: 0, nanoseconds: 0 };
    unsafe { clock_gettime(3, &mut at) };
    at.seconds as f64 + at.nanoseconds as f64 * 1e-9
}
