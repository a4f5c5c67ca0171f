//! Two sides timed in turn, by the processor time of this thread. Other load on the machine comes in
//! bursts that can slow all runs of one side, so only the ratios of neighbouring runs are compared;
//! each side goes first half of the time.

/// Odd, so that there is a middle one.
const PAIRS: usize = 101;

/// Quartiles of the seconds of each side, and of the second's over the first's.
pub struct Timed {
    pub first: [f64; 3],
    pub second: [f64; 3],
    pub ratio: [f64; 3],
}

/// Times a task, given by its number, on both sides. Each gives back a sum over its answers, which
/// must be the other's.
pub fn timed(first: impl Fn(usize) -> u64, second: impl Fn(usize) -> u64) -> Timed {
    let mut seconds = Vec::new();
    for i in 0..=PAIRS {
        let (a, b) = if i % 2 == 0 {
            let a = clocked(|| first(i));
            (a, clocked(|| second(i)))
        } else {
            let b = clocked(|| second(i));
            (clocked(|| first(i)), b)
        };
        assert_eq!(a.1, b.1, "the two sides differ in an answer");
        seconds.push((a.0, b.0));
    }
    // The first pair warmed the caches.
    let pairs = || seconds.iter().skip(1);
    Timed {
        first: quartiles(pairs().map(|pair| pair.0)),
        second: quartiles(pairs().map(|pair| pair.1)),
        ratio: quartiles(pairs().map(|pair| pair.1 / pair.0)),
    }
}

fn clocked(task: impl FnOnce() -> u64) -> (f64, u64) {
    let start = processor_seconds();
    let sum = task();
    (processor_seconds() - start, sum)
}

#[repr(C)]
struct Time {
    seconds: i64,
    nanoseconds: i64,
}

extern "C" {
    fn clock_gettime(clock: i32, time: *mut Time) -> i32;
}

/// Linux's number of the clock.
const THREAD_PROCESSOR_TIME: i32 = 3;

pub fn processor_seconds() -> f64 {
    let mut time = Time { seconds: 0, nanoseconds: 0 };
    // SAFETY: the call writes one `Time`, which is there.
    let status = unsafe { clock_gettime(THREAD_PROCESSOR_TIME, &mut time) };
    assert_eq!(status, 0, "the system has no such clock");
    time.seconds as f64 + time.nanoseconds as f64 / 1e9
}

fn quartiles(figures: impl Iterator<Item = f64>) -> [f64; 3] {
    let mut sorted: Vec<f64> = figures.collect();
    sorted.sort_by(f64::total_cmp);
    [1, 2, 3].map(|quarter| sorted[quarter * sorted.len() / 4])
}
