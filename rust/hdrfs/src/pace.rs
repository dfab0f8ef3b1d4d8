//! How much of a range to ask for at a time, where its runs do not fit into the room for them.
//!
//! The answer to too long a range says only that there is no room. So the length is found by
//! trying: halved while there is no room, doubled while the answers leave most of the room empty. A
//! long hole before many short runs would make that swing, since each doubling runs into the short
//! runs again. Therefore the end of a range that had no room is remembered, and the stretch before
//! it is halved until it is passed.
//!
//! Why this does not take many questions: a range without room has more runs than the room, and at
//! most about 64 questions later either it is passed or an answer has filled half the room.
//! Doublings in a row are at most 64 too. So with R runs and room for N there are at most about
//! 130 × (2R/N + 1) questions, however long the range is.

/// The length of the next range.
#[derive(Clone, Copy, Debug)]
pub(crate) struct Pace {
    /// How many positions to ask for.
    width: u64,
    /// The end of a range that had no room, while it is not passed.
    too_far: Option<u64>,
}

impl Pace {
    /// Begins with everything: most ranges fit at once.
    pub(crate) fn new() -> Pace {
        Pace {
            width: u64::MAX,
            too_far: None,
        }
    }

    /// Where the range that begins at `from` is to end, where there is room for `room` runs, and
    /// `end` is the last end.
    pub(crate) fn range_end(&self, from: u64, end: u64, room: u64) -> u64 {
        match self.too_far {
            Some(far) if room < far - from => from + (far - from) / 2,
            // As many positions as there is room for runs always fit.
            Some(far) => far,
            None => from + self.width.min(end.saturating_sub(from)),
        }
    }

    /// Notes that the next range begins anywhere. What is known of the way there does not hold.
    pub(crate) fn moved(&mut self) {
        self.too_far = None;
    }

    /// Notes that a range had no room.
    pub(crate) fn had_no_room(&mut self, to: u64) {
        self.too_far = Some(to);
    }

    /// Notes that a range of so many positions, up to `to`, had so many runs.
    pub(crate) fn had_room(&mut self, positions: u64, to: u64, runs: u64, room: u64) {
        if room / 2 < runs {
            self.too_far = None;
            self.width = positions;
        } else if self.too_far.is_none_or(|far| far <= to) {
            self.too_far = None;
            self.width = positions.saturating_mul(2);
        }
    }
}
