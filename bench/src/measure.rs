//! Time and instructions of two sides that do the same work.

use std::hint::black_box;

/// A batch of calls takes this long, or is one call.
const BATCH: f64 = 2e-3;
/// A row of the table takes about this long.
const ROW: f64 = 2.5;
const MOST_ROUNDS: usize = 201;
const LEAST_ROUNDS: usize = 9;

#[repr(C)]
struct Timespec {
    seconds: i64,
    nanoseconds: i64,
}

unsafe extern "C" {
    fn clock_gettime(clock: i32, now: *mut Timespec) -> i32;
}

/// This thread's time on a processor, in seconds: what others do on the machine's cores does not count.
fn now() -> f64 {
    const THREAD_TIME: i32 = 3;
    let mut time = Timespec {
        seconds: 0,
        nanoseconds: 0,
    };
    unsafe { clock_gettime(THREAD_TIME, &mut time) };
    time.seconds as f64 + time.nanoseconds as f64 * 1e-9
}

/// Instructions are counted inside of this function only (bench/run).
#[unsafe(no_mangle)]
#[inline(never)]
pub fn measured(work: &mut dyn FnMut()) {
    work();
}

/// The seconds of one call, of `calls` that are each timed alone: what a call gives is dropped while the clock stands.
fn batch<T>(calls: usize, work: &mut impl FnMut() -> T) -> f64 {
    let mut sum = 0.0;
    for _ in 0..calls {
        let begin = now();
        let given = black_box(work());
        sum += now() - begin;
        drop(given);
    }
    sum / calls as f64
}

fn middle(times: &[f64], part: f64) -> f64 {
    let mut sorted = times.to_vec();
    sorted.sort_unstable_by(f64::total_cmp);
    sorted[((sorted.len() - 1) as f64 * part).round() as usize]
}

pub struct Row {
    pub ours: f64,
    pub theirs: f64,
    pub ratio: f64,
    /// A tenth of the rounds lie below the first, and a tenth above the second.
    pub spread: (f64, f64),
    pub rounds: usize,
}

/// Both sides in turn, round after round; the one that begins changes.
pub fn compare<A, B>(mut ours: impl FnMut() -> A, mut theirs: impl FnMut() -> B) -> Row {
    let clock = batch(1000, &mut || ());
    let once = batch(3, &mut ours).max(batch(3, &mut theirs));
    let calls = (BATCH / once).ceil() as usize;
    let rounds = (ROW / (2.0 * once * calls as f64)) as usize;
    let rounds = rounds.clamp(LEAST_ROUNDS, MOST_ROUNDS);
    let (mut our_times, mut their_times) = (Vec::new(), Vec::new());
    for round in 0..rounds {
        if round % 2 == 0 {
            our_times.push(batch(calls, &mut ours) - clock);
            their_times.push(batch(calls, &mut theirs) - clock);
        } else {
            their_times.push(batch(calls, &mut theirs) - clock);
            our_times.push(batch(calls, &mut ours) - clock);
        }
    }
    let ratios: Vec<f64> = our_times
        .iter()
        .zip(&their_times)
        .map(|(a, b)| a / b)
        .collect();
    let (ours, theirs) = (middle(&our_times, 0.5), middle(&their_times, 0.5));
    Row {
        ours,
        theirs,
        ratio: ours / theirs,
        spread: (middle(&ratios, 0.1), middle(&ratios, 0.9)),
        rounds,
    }
}
