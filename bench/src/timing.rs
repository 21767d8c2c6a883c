//! Times of several sides of one measure, taken turn by turn.

use std::ffi::c_int;
use std::hint::black_box;
use std::time::Duration;

/// One sample lasts about as long; short calls are made many times in it.
const SAMPLE: Duration = Duration::from_millis(5);

#[repr(C)]
struct Timespec {
    seconds: i64,
    nanoseconds: i64,
}

extern "C" {
    fn clock_gettime(clock: c_int, time: *mut Timespec) -> c_int;
}

/// The processor time of this thread: what other programs use of a busy
/// machine does not count.
fn processor_time() -> Duration {
    const CLOCK_THREAD_CPUTIME_ID: c_int = 3;
    let mut time = Timespec {
        seconds: 0,
        nanoseconds: 0,
    };
    let failed = unsafe { clock_gettime(CLOCK_THREAD_CPUTIME_ID, &mut time) };
    assert_eq!(failed, 0, "no clock");
    Duration::new(time.seconds as u64, time.nanoseconds as u32)
}

/// One side of a measure and what it does in one call.
pub struct Side<'a> {
    pub name: &'static str,
    pub call: Box<dyn FnMut() + 'a>,
}

pub fn side<'a, R>(name: &'static str, mut call: impl FnMut() -> R + 'a) -> Side<'a> {
    let call = Box::new(move || {
        black_box(call());
    });
    Side { name, call }
}

/// What was measured: the best time of one call, in nanoseconds.
#[derive(Clone)]
pub struct Figure {
    pub measure: &'static str,
    pub bits: u64,
    pub blocks: usize,
    pub side: &'static str,
    pub nanoseconds: f64,
}

fn time(side: &mut Side<'_>, calls: u32) -> Duration {
    let begin = processor_time();
    for _ in 0..calls {
        (side.call)();
    }
    processor_time() - begin
}

/// How many calls last as long as a sample.
fn calls_in_a_sample(side: &mut Side<'_>) -> u32 {
    let mut calls = 1;
    while time(side, calls) < SAMPLE {
        calls *= 2;
    }
    calls
}

/// The best of so many runs. In every run each side has its turn, so that a
/// slow spell of the machine meets all of them.
pub fn best(mut sides: Vec<Side<'_>>, runs: u32) -> Vec<(&'static str, f64)> {
    let calls: Vec<u32> = sides.iter_mut().map(calls_in_a_sample).collect();
    let mut best = vec![f64::INFINITY; sides.len()];
    for _ in 0..runs {
        for (number, side) in sides.iter_mut().enumerate() {
            let sample = time(side, calls[number]).as_nanos() as f64;
            best[number] = best[number].min(sample / f64::from(calls[number]));
        }
    }
    let names = sides.iter().map(|side| side.name);
    names.zip(best).collect()
}
