//! Times of this thread's own work: on a busy machine the other processes do not count.

#[repr(C)]
struct Timespec {
    seconds: i64,
    nanoseconds: i64,
}

extern "C" {
    fn clock_gettime(clock: i32, time: *mut Timespec) -> i32;
}

/// Linux's CLOCK_THREAD_CPUTIME_ID.
const THREAD: i32 = 3;

fn now() -> f64 {
    let mut time = Timespec { seconds: 0, nanoseconds: 0 };
    let failed = unsafe { clock_gettime(THREAD, &mut time) };
    assert_eq!(failed, 0, "the thread's clock");
    time.seconds as f64 * 1e9 + time.nanoseconds as f64
}

/// The nanoseconds that the work takes, and what it answers.
pub fn timed<T>(work: impl FnOnce() -> T) -> (f64, T) {
    let start = now();
    let answer = work();
    (now() - start, answer)
}

/// Two kinds of work by turns, so many rounds: the median nanoseconds of each, for one of `parts` equal parts.
pub fn medians(
    rounds: usize,
    parts: f64,
    mut a: impl FnMut() -> f64,
    mut b: impl FnMut() -> f64,
) -> (f64, f64) {
    let (mut first, mut second) = (Vec::new(), Vec::new());
    for _ in 0..rounds {
        first.push(a() / parts);
        second.push(b() / parts);
    }
    (median(first), median(second))
}

fn median(mut times: Vec<f64>) -> f64 {
    times.sort_by(f64::total_cmp);
    times[times.len() / 2]
}
