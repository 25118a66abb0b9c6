//! The sides' times, taken by turns so that none has the quieter machine.

use std::ffi::{c_int, c_long};
use std::time::Instant;

/// How many inputs a round of [`best`] takes.
pub const INPUTS: usize = 4096;

/// How many rounds [`best`] takes the least of.
const ROUNDS: usize = 60;

/// The nanoseconds of the same thing in the library and in the Rust.
#[derive(Clone, Copy, Debug)]
pub struct Times {
    pub here: f64,
    pub rust: f64,
}

impl Times {
    pub fn ratio(self) -> f64 {
        self.here / self.rust
    }
}

fn least(mut round: impl FnMut()) -> f64 {
    let seconds = |_| {
        let start = Instant::now();
        round();
        start.elapsed().as_secs_f64()
    };
    (0..ROUNDS).map(seconds).fold(f64::INFINITY, f64::min)
}

/// The best times of an input; a round takes `INPUTS` of them.
pub fn best(mut here: impl FnMut(), mut rust: impl FnMut()) -> Times {
    let turns = [0, 1].map(|_| [least(&mut here), least(&mut rust)]);
    let [here, rust] = [0, 1].map(|side| f64::min(turns[0][side], turns[1][side]) * 1e9 / INPUTS as f64);
    Times { here, rust }
}

/// `struct timespec` of a 64-bit Linux.
#[repr(C)]
#[derive(Default)]
struct Timespec {
    seconds: c_long,
    nanoseconds: c_long,
}

/// `CLOCK_THREAD_CPUTIME_ID` of Linux.
const THREAD_TIME: c_int = 3;

unsafe extern "C" {
    fn clock_gettime(clock: c_int, time: *mut Timespec) -> c_int;
}

/// The processor's seconds that this thread has had. What others take of a long round isn't in them, as it is
/// in an [`Instant`]; to ask for them takes too long for a round of microseconds.
fn thread_seconds() -> f64 {
    let mut time = Timespec::default();
    // SAFETY: the pointer is to a `struct timespec` that is written and nothing else.
    let failed = unsafe { clock_gettime(THREAD_TIME, &raw mut time) };
    assert_eq!(failed, 0, "a thread's clock");
    time.seconds as f64 + time.nanoseconds as f64 / 1e9
}

fn thread_time(run: impl FnOnce()) -> f64 {
    let start = thread_seconds();
    run();
    thread_seconds() - start
}

/// The medians over so many rounds, in which each side has `count` things to do.
pub fn medians(rounds: usize, count: f64, mut here: impl FnMut(), mut rust: impl FnMut()) -> Times {
    let times = medians_of(2, rounds, count, |side| if side == 0 { here() } else { rust() });
    Times { here: times[0], rust: times[1] }
}

/// Those of any sides, which go by their numbers.
pub fn medians_of(sides: usize, rounds: usize, count: f64, mut round: impl FnMut(usize)) -> Vec<f64> {
    let mut turn = || -> Vec<f64> { (0..sides).map(|side| thread_time(|| round(side))).collect() };
    let turns: Vec<Vec<f64>> = (0..rounds).map(|_| turn()).collect();
    let median = |side: usize| {
        let mut times: Vec<f64> = turns.iter().map(|turn| turn[side]).collect();
        times.sort_by(f64::total_cmp);
        times[rounds / 2] * 1e9 / count
    };
    (0..sides).map(median).collect()
}
