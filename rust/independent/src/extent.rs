//! Extents of a regular file.

use crate::bytes::u64_at;

/// Bytes of one extent in an inode block.
pub const EXTENT_LENGTH: usize = 57;

pub const COUNTED: u8 = 67;
pub const REPEATED: u8 = 82;

/// One extent as it is stored.
#[derive(Clone, Copy, Debug, PartialEq, Eq)]
pub struct Extent {
    pub volume: u64,
    pub start: u64,
    pub size: u64,
    pub multiplicity: u8,
    pub count: u64,
    pub pre: u64,
    pub post: u64,
    pub logical: u64,
}

impl Extent {
    #[inline]
    pub fn parse(bytes: &[u8; EXTENT_LENGTH]) -> Extent {
        Extent {
            volume: u64_at(bytes, 0),
            start: u64_at(bytes, 8),
            size: u64_at(bytes, 16),
            multiplicity: bytes[24],
            count: u64_at(bytes, 25),
            pre: u64_at(bytes, 33),
            post: u64_at(bytes, 41),
            logical: u64_at(bytes, 49),
        }
    }

    /// The kept length, if the numbers keep the rules.
    #[inline]
    pub fn kept(&self) -> Option<u64> {
        let raw = self.size.checked_mul(self.count)?;
        let trimmed = self.pre.checked_add(self.post)?;
        let kept = raw.checked_sub(trimmed)?;
        self.logical.checked_add(kept)?;
        let span = match self.multiplicity {
            COUNTED => raw,
            REPEATED => self.size,
            _ => return None,
        };
        self.start.checked_add(span)?;
        Some(kept)
    }

    /// Where the stored bytes end, for an extent that keeps the rules.
    #[inline]
    pub(crate) fn stored_end(&self) -> u64 {
        let span = match self.multiplicity {
            COUNTED => self.size * self.count,
            _ => self.size,
        };
        self.start + span
    }
}

/// The whole extents in these bytes.
pub fn extents(bytes: &[u8]) -> impl ExactSizeIterator<Item = Extent> + Clone + '_ {
    bytes.as_chunks().0.iter().map(Extent::parse)
}

/// Whether each extent keeps the rules that concern it alone.
pub(crate) fn each_allowed(bytes: &[u8]) -> bool {
    bytes.len().is_multiple_of(EXTENT_LENGTH) && extents(bytes).all(|e| e.kept().is_some())
}

/// Whether two kept ranges share a position. Each extent is allowed.
pub(crate) fn overlap(bytes: &[u8]) -> bool {
    let kept = extents(bytes).filter_map(|e| match e.kept() {
        Some(length) if length > 0 => Some((e.logical, e.logical + length)),
        _ => None,
    });

    // Most files list their extents in order, and then nothing is sorted.
    let mut reached = 0;
    let rising = kept.clone().all(|(from, to)| {
        let follows = from >= reached;
        reached = to;
        follows
    });
    if rising {
        return false;
    }
    let mut ranges: Vec<(u64, u64)> = kept.collect();
    ranges.sort_unstable_by_key(|range| range.0);
    ranges.windows(2).any(|pair| pair[1].0 < pair[0].1)
}
