//! Times of two sides, measured alternately in one run.

use std::time::{Duration, Instant};

/// One turn of a side takes this long at least, in as many calls as that needs.
const TURN: Duration = Duration::from_millis(1);

/// Seconds a call of each side, and their ratio: the middle of all rounds.
#[derive(Clone, Copy)]
pub struct Times {
    pub proved: f64,
    pub second: f64,
    pub ratio: f64,
}

/// One call each in turn, so many times.
pub fn alternate(rounds: usize, mut proved: impl FnMut(), mut second: impl FnMut()) -> Times {
    let calls = calls_in_a_turn(&mut proved);
    let pairs: Vec<(f64, f64)> =
        (0..rounds).map(|_| (turn(calls, &mut proved), turn(calls, &mut second))).collect();
    Times {
        proved: middle(pairs.iter().map(|pair| pair.0)),
        second: middle(pairs.iter().map(|pair| pair.1)),
        ratio: middle(pairs.iter().map(|pair| pair.0 / pair.1)),
    }
}

/// Seconds a call with each of these in turn, the least of all rounds: what
/// else the machine does can only add to it.
pub fn least<T>(rounds: usize, all: &[T], mut call: impl FnMut(&T)) -> Vec<f64> {
    let calls: Vec<u32> = all.iter().map(|one| calls_in_a_turn(&mut || call(one))).collect();
    let mut times = vec![f64::INFINITY; all.len()];
    for _ in 0..rounds {
        for (i, one) in all.iter().enumerate() {
            times[i] = times[i].min(turn(calls[i], &mut || call(one)));
        }
    }
    times
}

fn calls_in_a_turn(call: &mut impl FnMut()) -> u32 {
    let mut calls = 1;
    while turn(calls, call) * f64::from(calls) < TURN.as_secs_f64() {
        calls *= 2;
    }
    calls
}

/// Seconds a call.
fn turn(calls: u32, call: &mut impl FnMut()) -> f64 {
    let started = Instant::now();
    for _ in 0..calls {
        call();
    }
    started.elapsed().as_secs_f64() / f64::from(calls)
}

fn middle(numbers: impl Iterator<Item = f64>) -> f64 {
    let mut numbers: Vec<f64> = numbers.collect();
    numbers.sort_by(f64::total_cmp);
    numbers[numbers.len() / 2]
}
