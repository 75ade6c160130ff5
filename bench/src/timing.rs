//! Two ways of doing one thing, timed side by side.

use std::time::Instant;

/// Rounds of a row, and fewer of long calls, so that a row takes about so long.
const ROUNDS: u128 = 301;
const FEWEST_ROUNDS: u128 = 101;
const ROW_NANOS: u128 = 150_000_000;
const ROUND_NANOS: u128 = 150_000;

/// Median times of one call, in microseconds.
pub struct Times {
    pub proved: f64,
    pub plain: f64,
    pub rounds: u128,
}

fn nanos(calls: usize, run: &mut dyn FnMut()) -> u128 {
    let start = Instant::now();
    for _ in 0..calls {
        run();
    }
    start.elapsed().as_nanos()
}

fn median(mut times: Vec<f64>) -> f64 {
    times.sort_by(f64::total_cmp);
    times[times.len() / 2]
}

/// The least of three: what the machine does beside it makes a round longer and never shorter.
fn least_nanos(calls: usize, run: &mut dyn FnMut()) -> u128 {
    nanos(calls, run).min(nanos(calls, run)).min(nanos(calls, run))
}

/// So many calls that a round of them is long enough to be measured.
fn calls_in_a_round(run: &mut dyn FnMut()) -> usize {
    let mut calls = 1;
    while least_nanos(calls, run) < ROUND_NANOS {
        calls *= 2;
    }
    calls
}

/// An odd number of rounds.
fn rounds(round_nanos: u128) -> u128 {
    (ROW_NANOS / round_nanos).clamp(FEWEST_ROUNDS, ROUNDS) | 1
}

/// The rounds of both alternate, and each goes first in every second round, so that a change of the machine's pace meets both alike.
pub fn side_by_side(proved: &mut dyn FnMut(), plain: &mut dyn FnMut()) -> Times {
    let calls = calls_in_a_round(proved).max(calls_in_a_round(plain));
    let rounds = rounds(least_nanos(calls, proved) + least_nanos(calls, plain));
    let (mut proved_times, mut plain_times) = (Vec::new(), Vec::new());
    for round in 0..rounds {
        if round % 2 == 0 {
            proved_times.push(nanos(calls, proved) as f64);
            plain_times.push(nanos(calls, plain) as f64);
        } else {
            plain_times.push(nanos(calls, plain) as f64);
            proved_times.push(nanos(calls, proved) as f64);
        }
    }
    let unit = 1000.0 * calls as f64;
    Times { proved: median(proved_times) / unit, plain: median(plain_times) / unit, rounds }
}

/// The median time of one call, in microseconds.
pub fn alone(run: &mut dyn FnMut()) -> f64 {
    let calls = calls_in_a_round(run);
    let rounds = rounds(least_nanos(calls, run));
    median((0..rounds).map(|_| nanos(calls, run) as f64).collect()) / (1000.0 * calls as f64)
}
