//! Times of one thread.
use std::hint::black_box;

/// C's struct timespec on x86-64 Linux.
#[repr(C)]
struct Time {
    seconds: i64,
    nanoseconds: i64,
}

const CLOCK_THREAD_CPUTIME_ID: i32 = 3;

unsafe extern "C" {
    fn clock_gettime(clock: i32, time: *mut Time) -> i32;
}

/// Processor time of this thread in nanoseconds: what else runs on the machine is not counted.
fn now() -> f64 {
    let mut t = Time { seconds: 0, nanoseconds: 0 };
    // Safety: writes one struct
    unsafe { clock_gettime(CLOCK_THREAD_CPUTIME_ID, &mut t) };
    t.seconds as f64 * 1e9 + t.nanoseconds as f64
}

/// What the work gives is freed after the clock stops.
pub fn ns<T>(work: impl FnOnce() -> T) -> f64 {
    let start = now();
    let answer = black_box(work());
    let took = now() - start;
    drop(answer);
    took
}

pub fn median(mut v: Vec<f64>) -> f64 {
    v.sort_by(f64::total_cmp);
    v[v.len() / 2]
}
