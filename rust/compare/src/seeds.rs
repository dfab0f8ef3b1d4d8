//! Seeds, shared out among threads.

use std::env;
use std::num::NonZero;
use std::sync::atomic::{AtomicU64, Ordering};
use std::thread;

/// How many seeds there are where nothing else is said.
pub const USUAL: u64 = 10_000;

/// Some seeds in a row.
#[derive(Clone, Copy, Debug)]
pub struct Seeds {
    pub first: u64,
    pub count: u64,
}

impl Seeds {
    /// As the environment says, see the crate's comment.
    #[must_use]
    pub fn asked() -> Seeds {
        Seeds {
            first: number("HDRFS_FIRST").unwrap_or(0),
            count: number("HDRFS_SEEDS").unwrap_or(USUAL),
        }
    }

    /// Does the work for every seed, on all cores, and answers what each thread has gathered. The
    /// work stops at the first seed that fails.
    ///
    /// # Errors
    ///
    /// What the work said of the seed that failed.
    pub fn each<T, F>(&self, work: F) -> Result<Vec<T>, String>
    where
        T: Default + Send,
        F: Fn(u64, &mut T) -> Result<(), String> + Sync,
    {
        let (next, end) = (AtomicU64::new(0), self.count);
        let one_thread = || -> Result<T, String> {
            let mut gathered = T::default();
            loop {
                let place = next.fetch_add(1, Ordering::Relaxed);
                if place >= end {
                    return Ok(gathered);
                }
                let worked = work(self.first.wrapping_add(place), &mut gathered);
                worked.inspect_err(|_| next.store(end, Ordering::Relaxed))?;
            }
        };
        thread::scope(|scope| {
            let threads: Vec<_> = (0..cores()).map(|_| scope.spawn(one_thread)).collect();
            let join = |thread: thread::ScopedJoinHandle<'_, _>| match thread.join() {
                Ok(gathered) => gathered,
                Err(panic) => std::panic::resume_unwind(panic),
            };
            threads.into_iter().map(join).collect()
        })
    }
}

/// Adds up what the threads have gathered.
///
/// # Panics
///
/// Where a seed failed, with what the work said of it.
pub fn sum<T: Default>(gathered: Result<Vec<T>, String>, add: impl Fn(&mut T, &T)) -> T {
    let mut sum = T::default();
    for part in gathered.unwrap_or_else(|told| panic!("{told}")) {
        add(&mut sum, &part);
    }
    sum
}

fn cores() -> usize {
    thread::available_parallelism().map_or(1, NonZero::get)
}

/// A number from the environment. One that cannot be read is no reason to go on without it.
fn number(name: &str) -> Option<u64> {
    let text = env::var(name).ok()?;
    match text.parse() {
        Ok(number) => Some(number),
        Err(error) => panic!("{name}={text}: {error}"),
    }
}

#[cfg(test)]
mod tests {
    use super::Seeds;

    const SEEDS: Seeds = Seeds {
        first: 30,
        count: 500,
    };

    #[test]
    fn every_seed_comes_once() {
        let lists = SEEDS.each(|seed, list: &mut Vec<u64>| {
            list.push(seed);
            Ok(())
        });
        let mut all = lists.expect("nothing fails").concat();
        all.sort_unstable();
        assert_eq!(all, (30..530).collect::<Vec<u64>>());
    }

    #[test]
    fn a_failure_is_told() {
        let failed = SEEDS.each(|seed, (): &mut ()| match seed {
            500 => Err("at 500".into()),
            _ => Ok(()),
        });
        assert_eq!(failed, Err("at 500".into()));
    }
}
