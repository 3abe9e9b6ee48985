//! The least time of many rounds: what else the machine does can only add to it.

use std::hint::black_box;
use std::time::{Duration, Instant};

pub struct Least(Duration);

impl Least {
    pub fn new() -> Self {
        Least(Duration::MAX)
    }

    /// Runs the work so many times, and answers what the last run did.
    pub fn of<T>(&mut self, times: usize, mut work: impl FnMut() -> T) -> T {
        let start = Instant::now();
        for _ in 1..times {
            black_box(work());
        }
        let last = work();
        self.0 = self.0.min(start.elapsed());
        last
    }

    pub fn nanoseconds(&self, count: usize) -> f64 {
        self.0.as_secs_f64() * 1e9 / count as f64
    }
}

/// Nanoseconds a call, by the least of so many rounds over the arguments. Calls don't wait for each other.
pub fn least(rounds: usize, arguments: &[f64], kernel: fn(f64) -> f64) -> f64 {
    let mut least = Least::new();
    for _ in 0..rounds {
        least.of(1, || {
            for &x in arguments {
                black_box(kernel(x));
            }
        });
    }
    least.nanoseconds(arguments.len())
}

/// The same where each call waits for the one before, whose answer goes into its argument.
pub fn chained(rounds: usize, arguments: &[f64], kernel: fn(f64) -> f64) -> f64 {
    let mut least = Least::new();
    for _ in 0..rounds {
        least.of(1, || arguments.iter().fold(0.0, |y, x| kernel(x + y)));
    }
    least.nanoseconds(arguments.len())
}
