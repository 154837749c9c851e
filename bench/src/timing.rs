//! Times: the median of many single calls, both sides in turn, with every area cleared before each call.

use crate::subject::{Operation, Side, Subject};
use std::time::{Duration, Instant};

const FEWEST: usize = 15;
const MOST: usize = 2000;
/// After the fewest calls no more are begun once this has passed.
const ENOUGH: Duration = Duration::from_millis(50);

/// From here on a call's time is the processor time of this thread, which other programs' turns do not lengthen. Asking for that takes too
/// long for short calls.
const LONG: Duration = Duration::from_micros(100);

#[repr(C)]
struct Time {
    seconds: i64,
    nanoseconds: i64,
}

const THREAD_PROCESSOR_TIME: i32 = 3;

extern "C" {
    fn clock_gettime(clock: i32, time: *mut Time) -> i32;
}

/// Nanoseconds that this thread has had a processor.
fn processor_time() -> f64 {
    let mut time = Time {
        seconds: 0,
        nanoseconds: 0,
    };
    // SAFETY: the clock is Linux's, and the struct its on x86-64.
    let status = unsafe { clock_gettime(THREAD_PROCESSOR_TIME, &mut time) };
    assert_eq!(status, 0);
    time.seconds as f64 * 1e9 + time.nanoseconds as f64
}

/// Nanoseconds of one call, ours and the second program's.
pub fn nanoseconds(subject: &mut Subject, operation: Operation) -> [f64; 2] {
    let clock = clock_cost();
    let mut samples = [Vec::new(), Vec::new()];
    let begin = Instant::now();
    while samples[0].len() < FEWEST || (samples[0].len() < MOST && begin.elapsed() < ENOUGH) {
        for (side, samples) in Side::ALL.into_iter().zip(&mut samples) {
            subject.clear();
            let worked = processor_time();
            let start = Instant::now();
            subject.run(operation, side);
            let elapsed = start.elapsed();
            samples.push(if elapsed < LONG {
                elapsed.as_nanos() as f64
            } else {
                processor_time() - worked
            });
        }
    }
    samples.map(|samples| (median(samples) - clock).max(1.0))
}

/// What reading the clock twice adds to a sample.
fn clock_cost() -> f64 {
    let empty = || Instant::now().elapsed().as_nanos() as f64;
    median((0..MOST).map(|_| empty()).collect())
}

fn median(mut samples: Vec<f64>) -> f64 {
    samples.sort_by(f64::total_cmp);
    samples[samples.len() / 2]
}
