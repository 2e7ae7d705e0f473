//! Times taken in short alternating slices, so that what else the machine does falls on every side alike. What is read is the
//! processor time of this thread: it stands still while another one has the processor.
use std::hint::black_box;

/// One way of answering a row's questions: a run answers all of them once.
pub type Side<'a> = Box<dyn FnMut() + 'a>;

/// Nanoseconds of a slice, at least.
const SLICE: f64 = 1e6;
/// Nanoseconds that the rounds of a row may take together, and the rounds that it has in any case: one run of the longest takes a second.
const ROW: f64 = 3e9;
const FEWEST: usize = 5;

/// The nanoseconds of one run of each side: for each round one slice a side, each side first in its turn.
pub fn rounds(sides: &mut [Side], wanted: usize) -> Vec<Vec<f64>> {
    let (repeats, took): (Vec<u32>, Vec<f64>) = sides.iter_mut().map(fitting).unzip();
    let rounds = wanted.min(FEWEST.max((ROW / took.iter().sum::<f64>()) as usize));
    let mut times = vec![Vec::with_capacity(rounds); sides.len()];
    for round in 0..rounds {
        for turn in 0..sides.len() {
            let side = (round + turn) % sides.len();
            times[side].push(slice(&mut sides[side], repeats[side]));
        }
    }
    times
}

/// How many runs fill a slice, and the nanoseconds that they took.
fn fitting(side: &mut Side) -> (u32, f64) {
    let mut repeats = 1;
    loop {
        let total = slice(side, repeats) * f64::from(repeats);
        if total >= SLICE {
            return (repeats, total);
        }
        repeats *= 2;
    }
}

fn slice(side: &mut Side, repeats: u32) -> f64 {
    let start = now();
    for _ in 0..repeats {
        side();
        black_box(());
    }
    (now() - start) / f64::from(repeats)
}

#[repr(C)]
struct Timespec {
    seconds: i64,
    nanoseconds: i64,
}

extern "C" {
    fn clock_gettime(clock: i32, time: *mut Timespec) -> i32;
}

/// Linux's number of the clock of this thread's processor time.
const THREAD_CPUTIME: i32 = 3;

/// The nanoseconds of processor time that this thread has used.
pub fn now() -> f64 {
    let mut time = Timespec { seconds: 0, nanoseconds: 0 };
    let status = unsafe { clock_gettime(THREAD_CPUTIME, &mut time) };
    assert_eq!(status, 0, "the clock of this thread is read");
    time.seconds as f64 * 1e9 + time.nanoseconds as f64
}

/// The middle one, or the mean of the middle two.
pub fn median(times: &[f64]) -> f64 {
    let mut sorted = times.to_vec();
    sorted.sort_by(f64::total_cmp);
    (sorted[(sorted.len() - 1) / 2] + sorted[sorted.len() / 2]) / 2.0
}
