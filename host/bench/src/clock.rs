//! Times two ways to do one thing, turn by turn, so that what else the machine does falls on both; or one way by itself.

use std::time::Instant;

pub const ROUNDS: usize = 31;

/// The least time of one turn, well above what the clock can tell.
const TURN_NS: f64 = 2_000_000.0;

/// The times of one call over the turns, in ns.
pub struct Times {
    pub least: f64,
    pub median: f64,
}

/// The median time of one call of each, in ns.
pub fn medians(first: impl FnMut(), second: impl FnMut()) -> (f64, f64) {
    let [first, second] = times(ROUNDS, first, second);
    (first.median, second.median)
}

/// The times of one call of each, over so many rounds of a turn each.
pub fn times(rounds: usize, mut first: impl FnMut(), mut second: impl FnMut()) -> [Times; 2] {
    let (first_calls, second_calls) = (calls_per_turn(&mut first), calls_per_turn(&mut second));
    let (mut first_times, mut second_times) = (Vec::new(), Vec::new());
    for _ in 0..rounds {
        first_times.push(time(&mut first, first_calls));
        second_times.push(time(&mut second, second_calls));
    }
    [first_times, second_times].map(Times::of)
}

/// The times of one call of a thing by itself, over so many turns.
pub fn times_alone(rounds: usize, mut work: impl FnMut()) -> Times {
    let calls = calls_per_turn(&mut work);
    Times::of((0..rounds).map(|_| time(&mut work, calls)).collect())
}

impl Times {
    fn of(mut turns: Vec<f64>) -> Times {
        turns.sort_by(f64::total_cmp);
        Times {
            least: turns[0],
            median: turns[turns.len() / 2],
        }
    }
}

/// Doubles the calls until a turn is long enough; that also warms the caches.
fn calls_per_turn(work: &mut impl FnMut()) -> u32 {
    let mut calls = 1;
    while time(work, calls) * f64::from(calls) < TURN_NS {
        calls *= 2;
    }
    calls
}

/// The time of one call, over so many.
fn time(work: &mut impl FnMut(), calls: u32) -> f64 {
    let began = Instant::now();
    for _ in 0..calls {
        work();
    }
    began.elapsed().as_nanos() as f64 / f64::from(calls)
}
