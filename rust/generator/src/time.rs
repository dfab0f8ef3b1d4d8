//! Times: those that may follow the last one before, and those that may not.
//!
//! A time may be the same as the last one. Loggers write several blocks in
//! one microsecond, so many sound volumes have equal times.

use crate::image;
use crate::rng::Rng;

const TOP: u64 = u64::MAX;

/// A time that may come after the last one: any, if there is none.
pub fn following(rng: &mut Rng, last: Option<u64>) -> u64 {
    let Some(last) = last else {
        return match rng.below(6) {
            0 => 0,
            1 => TOP - rng.below(12),
            2 => rng.number(),
            _ => rng.below(1_000),
        };
    };
    match rng.below(40) {
        0 => rng.between(last, TOP),
        1..=8 => last,
        9..=20 => last.saturating_add(1),
        _ => last.saturating_add(rng.below(500)),
    }
}

/// A time that may not come after this last one, which is above 0.
pub fn lower(rng: &mut Rng, last: u64) -> u64 {
    match rng.below(4) {
        0 => 0,
        1 => rng.below(last),
        _ => last - 1,
    }
}

/// The time itself, or the one just before or after it.
pub fn around(rng: &mut Rng, time: u64) -> u64 {
    rng.pick(&[time.saturating_sub(1), time, time.saturating_add(1)])
}

/// What stands in the time field of the block at the front, be it sound or
/// not. A table has none.
pub fn of_block(bytes: &[u8]) -> Option<u64> {
    let at = match *bytes.first()? {
        image::INODE => 9,
        image::LINK..=image::RENAME => 1,
        _ => return None,
    };
    let field = bytes.get(at..at + 8)?;
    Some(u64::from_le_bytes(field.try_into().expect("eight bytes")))
}

#[cfg(test)]
mod tests {
    use super::*;

    #[test]
    fn as_promised() {
        let mut rng = Rng::new(4);
        for last in [0, 1, 7, TOP - 1, TOP] {
            let mut equal = 0;
            for _ in 0..300 {
                let time = following(&mut rng, Some(last));
                assert!(time >= last);
                equal += u64::from(time == last);
                assert!(last == 0 || lower(&mut rng, last) < last);
                assert!(around(&mut rng, last).abs_diff(last) <= 1);
            }
            assert!(equal > 50, "{equal} times {last} after itself");
        }
    }
}
