//! Time of functions taken turn about.

use std::hint::black_box;
use std::time::{Duration, Instant};

/// Where the stack stands when a call begins can make it slower by a tenth; each round begins lower
/// by one step, and after so many rounds it is the first one's turn again.
const DEPTHS: usize = 64;

/// The shortest time of each function, in nanoseconds a run, over many short rounds. A round runs
/// each of them for about `part`, another one first each time.
pub fn shortest(functions: &mut [&mut dyn FnMut()], rounds: usize, part: Duration) -> Vec<f64> {
    let counts: Vec<u32> = functions.iter_mut().map(|run| runs_in(*run, part)).collect();
    let mut shortest = vec![f64::MAX; functions.len()];
    for round in 0..rounds {
        for turn in 0..functions.len() {
            let at = (turn + round) % functions.len();
            let taken = lower(round % DEPTHS, functions[at], counts[at]).as_nanos() as f64;
            shortest[at] = shortest[at].min(taken / f64::from(counts[at]));
        }
    }
    shortest
}

/// The time of some runs that begin lower on the stack, by so many small steps.
#[inline(never)]
fn lower(steps: usize, run: &mut dyn FnMut(), count: u32) -> Duration {
    let step = black_box([0u8; 16]);
    let taken = match steps {
        0 => time(run, count),
        _ => lower(steps - 1, run, count),
    };
    black_box(step);
    taken
}

/// How many runs fill a part of a round; warms up as well.
fn runs_in(run: &mut dyn FnMut(), part: Duration) -> u32 {
    let mut count = 1;
    while time(run, count) < part {
        count *= 2;
    }
    count
}

fn time(run: &mut dyn FnMut(), count: u32) -> Duration {
    let start = Instant::now();
    for _ in 0..count {
        run();
    }
    start.elapsed()
}

/// The one in the middle.
pub fn median(mut numbers: Vec<f64>) -> f64 {
    numbers.sort_by(f64::total_cmp);
    numbers[numbers.len() / 2]
}
