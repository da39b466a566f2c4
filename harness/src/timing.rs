//! Times of calls: medians, turn by turn, so that a change of the machine's
//! speed meets both calls of a pair. What is timed is the thread's own time on a
//! processor, without what other processes take of it.

use std::ffi::{c_int, c_long};
use std::time::Duration;

/// Pairs of measurements of which the median is taken.
pub const PAIRS: usize = 101;
/// One measurement repeats a call until it takes about this long.
const BATCH: Duration = Duration::from_micros(400);

/// Which of two calls is due.
#[derive(Clone, Copy)]
pub enum Turn {
    First,
    Second,
}

/// Median times of two calls in nanoseconds, and the median ratio of pairs.
pub struct InTurn {
    pub first: f64,
    pub second: f64,
    pub ratio: f64,
}

/// Measures one call.
pub fn alone(mut call: impl FnMut()) -> f64 {
    let repeats = repeats(&mut call);
    median((0..PAIRS).map(|_| time(repeats, &mut call)).collect())
}

/// Measures two calls turn by turn, so many times.
pub fn in_turn(pairs: usize, mut call: impl FnMut(Turn)) -> InTurn {
    let repeats = repeats(|| call(Turn::Second));
    let mut take = |turn| time(repeats, || call(turn));
    let (mut firsts, mut seconds, mut ratios) = (Vec::new(), Vec::new(), Vec::new());
    for pair in 0..pairs {
        // Each call goes first in every other pair.
        let (first, second) = if pair % 2 == 0 {
            let second = take(Turn::Second);
            (take(Turn::First), second)
        } else {
            let first = take(Turn::First);
            (first, take(Turn::Second))
        };
        firsts.push(first);
        seconds.push(second);
        ratios.push(first / second);
    }
    InTurn {
        first: median(firsts),
        second: median(seconds),
        ratio: median(ratios),
    }
}

#[repr(C)]
struct Timespec {
    seconds: i64,
    nanoseconds: c_long,
}

/// `CLOCK_THREAD_CPUTIME_ID` of Linux.
const THREAD_CLOCK: c_int = 3;

extern "C" {
    fn clock_gettime(clock: c_int, time: *mut Timespec) -> c_int;
}

/// How long this thread has had a processor.
fn thread_time() -> Duration {
    let mut time = Timespec {
        seconds: 0,
        nanoseconds: 0,
    };
    // SAFETY: the call writes one time where it is lent.
    let failed = unsafe { clock_gettime(THREAD_CLOCK, &mut time) };
    assert_eq!(failed, 0, "no clock for the thread's time");
    Duration::new(time.seconds as u64, time.nanoseconds as u32)
}

/// The time that a call takes.
pub fn timed(call: impl FnOnce()) -> Duration {
    let start = thread_time();
    call();
    thread_time() - start
}

/// How often a call is repeated in one measurement.
fn repeats(mut call: impl FnMut()) -> u32 {
    let mut repeats = 1;
    loop {
        let time = timed(|| (0..repeats).for_each(|_| call()));
        if time >= BATCH || repeats >= 1 << 20 {
            return repeats;
        }
        repeats *= 2;
    }
}

/// Nanoseconds of one call.
fn time(repeats: u32, mut call: impl FnMut()) -> f64 {
    let time = timed(|| (0..repeats).for_each(|_| call()));
    time.as_nanos() as f64 / f64::from(repeats)
}

fn median(mut values: Vec<f64>) -> f64 {
    values.sort_unstable_by(f64::total_cmp);
    values[values.len() / 2]
}
