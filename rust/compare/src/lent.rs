//! A list to lend, in which every number that is written to shows.

/// Numbers before and after the list, which nobody may write to.
const GUARD: usize = 7;

#[derive(Clone, PartialEq, Eq, Debug)]
pub(crate) struct Lent {
    numbers: Vec<u64>,
    room: usize,
}

/// What stands at a place before the list is lent. No run is likely to have it.
fn old(place: usize) -> u64 {
    (place as u64 + 1).wrapping_mul(0x9E37_79B9_7F4A_7C15)
}

impl Lent {
    pub(crate) fn new(room: usize) -> Lent {
        Lent {
            numbers: (0..room + 2 * GUARD).map(old).collect(),
            room,
        }
    }

    /// The list itself.
    pub(crate) fn list(&mut self) -> &mut [u64] {
        &mut self.numbers[GUARD..][..self.room]
    }

    /// The first numbers of the list.
    pub(crate) fn first(&self, many: usize) -> &[u64] {
        &self.numbers[GUARD..][..many]
    }

    /// Whether all but the first numbers are as they were, those around the list too.
    pub(crate) fn kept_beyond(&self, many: usize) -> bool {
        let is_old = |place: usize| self.numbers[place] == old(place);
        (0..GUARD).all(is_old) && (GUARD + many..self.numbers.len()).all(is_old)
    }
}

#[cfg(test)]
mod tests {
    use super::{Lent, GUARD};

    #[test]
    fn every_write_beyond_shows() {
        for room in [0, 1, 12] {
            for many in 0..=room {
                let lent = Lent::new(room);
                assert!(lent.kept_beyond(many));
                for place in 0..room + 2 * GUARD {
                    let mut written = lent.clone();
                    written.numbers[place] ^= 1;
                    let allowed = (GUARD..GUARD + many).contains(&place);
                    assert_eq!(written.kept_beyond(many), allowed);
                }
            }
        }
    }
}
