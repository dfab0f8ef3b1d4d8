//! Taking the time.

use std::hint::black_box;
use std::time::{Duration, Instant};

use crate::clock;

/// The best time of each work, done in turns so that all meet the same disturbances.
pub fn best<const N: usize>(rounds: usize, works: [&mut dyn FnMut(); N]) -> [Duration; N] {
    best_by(clock::now, rounds, works)
}

/// The same by the usual clock, for works that wait for another process, whose time is not this
/// thread's.
pub fn best_by_wall_clock<const N: usize>(
    rounds: usize,
    works: [&mut dyn FnMut(); N],
) -> [Duration; N] {
    let begin = Instant::now();
    best_by(|| begin.elapsed(), rounds, works)
}

fn best_by<const N: usize>(
    now: impl Fn() -> Duration,
    rounds: usize,
    mut works: [&mut dyn FnMut(); N],
) -> [Duration; N] {
    let mut best = [Duration::MAX; N];
    for _ in 0..rounds {
        for (best, work) in best.iter_mut().zip(&mut works) {
            let start = now();
            work();
            *best = (now() - start).min(*best);
        }
    }
    best
}

/// Makes a call so many times, where one takes too little time to be measured by itself.
pub fn each_call(calls: u32, call: impl Fn()) {
    for _ in 0..calls {
        call();
    }
}

/// Takes an answer, so that the work for it cannot be left out.
pub fn use_up<T>(answer: T) {
    black_box(answer);
}
