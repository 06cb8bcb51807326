//! Times the same call of several implementations in turns.

use crate::processor::processor_time;
use std::hint::black_box;

/// How long is measured.
#[derive(Clone, Copy)]
pub struct Effort {
    /// How often each loop is timed.
    pub rounds: usize,
    /// A loop makes so many calls that it takes about so many nanoseconds.
    pub loop_time: u64,
}

impl Effort {
    /// For figures that are kept.
    pub const FULL: Effort = Effort {
        rounds: 15,
        loop_time: 20_000_000,
    };
    /// For a first look.
    pub const QUICK: Effort = Effort {
        rounds: 3,
        loop_time: 2_000_000,
    };
}

/// The processor time of one call in nanoseconds.
#[derive(Clone, Copy)]
pub struct Time {
    /// The least of the rounds.
    pub least: f64,
    /// The median of the rounds.
    pub median: f64,
}

impl Time {
    fn of(mut times: Vec<f64>) -> Time {
        times.sort_by(f64::total_cmp);
        Time {
            least: times[0],
            median: times[times.len() / 2],
        }
    }

    /// What is left of it without another one, for each of so many.
    pub fn each(self, without: Time, count: usize) -> Time {
        Time {
            least: (self.least - without.least) / count as f64,
            median: (self.median - without.median) / count as f64,
        }
    }
}

/// Times calls round by round, each of them once in a round, so that what
/// disturbs one disturbs the others.
pub fn in_turns<const N: usize, T>(effort: Effort, mut calls: [impl FnMut() -> T; N]) -> [Time; N] {
    let counts = calls.each_mut().map(|call| count(effort, call));
    let mut times = [const { Vec::new() }; N];
    for _ in 0..effort.rounds {
        for (side, call) in calls.iter_mut().enumerate() {
            times[side].push(time(call, counts[side]) / counts[side] as f64);
        }
    }
    times.map(Time::of)
}

/// How many calls take about as long as a loop should.
fn count<T>(effort: Effort, call: &mut impl FnMut() -> T) -> usize {
    let mut count = 1;
    while time(call, count) < effort.loop_time as f64 / 2.0 {
        count *= 2;
    }
    count
}

/// The processor time of so many calls in nanoseconds.
fn time<T>(call: &mut impl FnMut() -> T, calls: usize) -> f64 {
    let start = processor_time();
    for _ in 0..calls {
        black_box(call());
    }
    (processor_time() - start) as f64
}
