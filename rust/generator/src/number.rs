//! Numbers of blocks before a bookmark.
//!
//! A reading counts from 0 on, and no volume has so many blocks that it comes
//! near the largest number. Only made-up bookmarks do.

use crate::rng::Rng;

/// At this number one block more cannot be counted.
pub const FULL: u64 = u64::MAX;

/// A made-up number: often the largest or the one before it.
pub fn made_up(rng: &mut Rng) -> u64 {
    match rng.below(10) {
        0 => 0,
        1 | 2 => rng.below(20),
        3 => rng.number(),
        4 | 5 => FULL - 1,
        _ => FULL,
    }
}

#[cfg(test)]
mod tests {
    use super::*;

    #[test]
    fn all_that_matter_are_made_up() {
        let mut rng = Rng::new(5);
        let numbers: Vec<u64> = (0..1_000).map(|_| made_up(&mut rng)).collect();
        let count = |is_so: fn(u64) -> bool| numbers.iter().filter(|&&n| is_so(n)).count();
        let counts = [
            count(|number| number == 0),
            count(|number| (1..20).contains(&number)),
            count(|number| (20..FULL - 1).contains(&number)),
            count(|number| number == FULL - 1),
            count(|number| number == FULL),
        ];
        assert!(counts.iter().all(|&count| count > 30), "{counts:?}");
        assert!(counts[3] > 150 && counts[4] > 300, "{counts:?}");
    }
}
