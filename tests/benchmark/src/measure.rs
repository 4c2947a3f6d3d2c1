// Times of calls: batches of all sides in turn, so that what else runs on the machine slows all.

use std::time::{Duration, Instant};

pub const ROUNDS: usize = 41;

/// About as long as a batch of calls takes.
const BATCH: Duration = Duration::from_millis(2);

pub type Call = Box<dyn FnMut() -> u64>;

/// Seconds that a call takes, over so many of them.
fn time(call: &mut Call, times: u32) -> f64 {
    let started = Instant::now();
    let mut sum = 0u64;
    for _ in 0..times {
        sum = sum.wrapping_add(call());
    }
    let elapsed = started.elapsed().as_secs_f64();
    keep(sum);
    elapsed / times as f64
}

/// Makes the compiler believe that a number is needed.
fn keep(number: u64) {
    unsafe { std::ptr::read_volatile(&number) };
}

/// How many calls make a batch.
fn batch(call: &mut Call) -> u32 {
    let mut times = 1;
    while times < 1 << 24 && time(call, times) * (times as f64) < BATCH.as_secs_f64() {
        times *= 2;
    }
    times
}

fn median(mut times: Vec<f64>) -> f64 {
    times.sort_unstable_by(f64::total_cmp);
    times[times.len() / 2]
}

/// The median times of a call of each.
pub fn medians<const N: usize>(calls: [&mut Call; N]) -> [f64; N] {
    let mut timed = calls.map(|call| (batch(call), call, Vec::new()));
    for _ in 0..ROUNDS {
        for (times, call, all) in &mut timed {
            all.push(time(call, *times));
        }
    }
    timed.map(|(_, _, all)| median(all))
}

/// Seconds with a unit.
pub fn in_words(seconds: f64) -> String {
    match seconds {
        s if s < 1e-6 => format!("{:.0} ns", s * 1e9),
        s if s < 1e-3 => format!("{:.2} µs", s * 1e6),
        s => format!("{:.2} ms", s * 1e3),
    }
}
