//! Two closures timed in turn, in batches of about half a millisecond or of one call: for each side, the median and
//! the minimum over all batches of the time of one call.

use std::time::Instant;

#[derive(Clone, Copy)]
pub struct Time {
    pub median: f64,
    pub least: f64,
}

fn batch(f: &mut impl FnMut(), calls: usize) -> f64 {
    let t = Instant::now();
    for _ in 0..calls {
        f();
    }
    t.elapsed().as_secs_f64() / calls as f64
}

fn calls_for(f: &mut impl FnMut()) -> usize {
    f();
    let once = batch(f, 1).max(1e-9);
    ((0.0005 / once) as usize).clamp(1, 1_000_000)
}

pub fn time_of(mut batches: Vec<f64>) -> Time {
    batches.sort_by(f64::total_cmp);
    Time { median: batches[batches.len() / 2], least: batches[0] }
}

/// In seconds per call.
pub fn pair(mut a: impl FnMut(), mut b: impl FnMut()) -> (Time, Time) {
    let (m, n) = (calls_for(&mut a), calls_for(&mut b));
    let count = match batch(&mut a, 1) {
        t if t > 0.02 => 11,
        t if t > 0.002 => 41,
        _ => 201,
    };
    let (mut x, mut y) = (Vec::new(), Vec::new());
    for i in 0..count {
        if i % 2 == 0 {
            x.push(batch(&mut a, m));
            y.push(batch(&mut b, n));
        } else {
            y.push(batch(&mut b, n));
            x.push(batch(&mut a, m));
        }
    }
    (time_of(x), time_of(y))
}

/// How much longer a call of a takes than one of b, in seconds: the median over rounds of one call of each, and the
/// standard error of that median, estimated from the quartiles.
pub fn difference(mut a: impl FnMut(), mut b: impl FnMut(), rounds: usize) -> (f64, f64) {
    let mut d: Vec<f64> = (0..rounds).map(|_| batch(&mut a, 1) - batch(&mut b, 1)).collect();
    d.sort_by(f64::total_cmp);
    let spread = (d[3 * rounds / 4] - d[rounds / 4]) / 1.35;
    (d[rounds / 2], 1.25 * spread / (rounds as f64).sqrt())
}

extern "C" {
    fn clock_gettime(clock: i32, time: *mut [i64; 2]) -> i32;
    fn getrusage(whose: i32, usage: *mut [i64; 18]) -> i32;
}

/// The processor time of all processes that this one started and waited for, in seconds.
pub fn of_children() -> f64 {
    let mut usage = [0; 18];
    // SAFETY: -1 means the children. The usage is a struct of 18 numbers of 64 bits on x86-64 Linux, beginning with
    // the user time and then the system time, each in seconds and microseconds.
    assert_eq!(unsafe { getrusage(-1, &mut usage) }, 0);
    (usage[0] + usage[2]) as f64 + (usage[1] + usage[3]) as f64 * 1e-6
}

/// The processor time of this thread, in seconds.
pub fn processor_time() -> f64 {
    let mut time = [0; 2];
    // SAFETY: clock 3 is that of the calling thread. The time is a struct of two numbers of 64 bits on x86-64 Linux.
    assert_eq!(unsafe { clock_gettime(3, &mut time) }, 0);
    time[0] as f64 + time[1] as f64 * 1e-9
}

fn processor_batch(f: &mut impl FnMut(), calls: usize) -> f64 {
    let began = processor_time();
    for _ in 0..calls {
        f();
    }
    (processor_time() - began) / calls as f64
}

/// How much longer a takes than b, and c than d, in seconds per call: the median over rounds of the difference, and
/// the difference of the minima. In processor time, because a difference of wall-clock times is lost in the noise of
/// other work.
pub fn differences(mut a: impl FnMut(), mut b: impl FnMut(), mut c: impl FnMut(), mut d: impl FnMut()) -> (Time, Time) {
    let calls = calls_for(&mut a);
    let rounds = match batch(&mut a, 1) {
        t if t > 0.2 => 3,
        t if t > 0.02 => 11,
        t if t > 0.002 => 41,
        _ => 201,
    };
    let mut times: [Vec<f64>; 4] = Default::default();
    for _ in 0..rounds {
        times[0].push(processor_batch(&mut a, calls));
        times[2].push(processor_batch(&mut c, calls));
        times[1].push(processor_batch(&mut b, calls));
        times[3].push(processor_batch(&mut d, calls));
    }
    let less = |x: &[f64], y: &[f64]| {
        let median = time_of(x.iter().zip(y).map(|(x, y)| x - y).collect()).median;
        Time { median, least: time_of(x.to_vec()).least - time_of(y.to_vec()).least }
    };
    (less(&times[0], &times[1]), less(&times[2], &times[3]))
}

/// A time, in a suitable unit.
pub fn shown(seconds: f64) -> String {
    if seconds.abs() < 1e-6 {
        format!("{:.0} ns", seconds * 1e9)
    } else if seconds.abs() < 1e-3 {
        format!("{:.2} µs", seconds * 1e6)
    } else {
        format!("{:.2} ms", seconds * 1e3)
    }
}
