//! Processor time of this process, by C's `clock_gettime`: what other programs take doesn't count.

const CLOCK_PROCESS_CPUTIME_ID: i32 = 2;

#[repr(C)]
struct Timespec {
    seconds: i64,
    nanoseconds: i64,
}

extern "C" {
    fn clock_gettime(clock: i32, now: *mut Timespec) -> i32;
}

pub fn seconds() -> f64 {
    let mut now = Timespec { seconds: 0, nanoseconds: 0 };
    // SAFETY: `now` has the layout of a 64-bit Linux `struct timespec`.
    let failed = unsafe { clock_gettime(CLOCK_PROCESS_CPUTIME_ID, &mut now) };
    assert_eq!(failed, 0, "this system has no clock of processor time");
    now.seconds as f64 + 1e-9 * now.nanoseconds as f64
}
