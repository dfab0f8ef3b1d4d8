//! The runs of a range of positions.

use crate::crc;
use crate::extent::COUNTED;
use crate::lookup::{for_each_kept, Kept};
use crate::refusal::{Refusal, NO_ROOM};

/// Writes the runs of `from` to below `to`, five numbers each, and gives how
/// many there are. `out` is the room; on refusal it stays as it was.
pub fn runs(
    volume: &[u8],
    offset: u64,
    lengths: &[u8],
    from: u64,
    to: u64,
    out: &mut [u64],
) -> Result<u64, Refusal> {
    runs_with(volume, offset, lengths, from, to, out, crc::slicing)
}

/// Like [`runs`], with a chosen form of the checksum.
pub fn runs_with(
    volume: &[u8],
    offset: u64,
    lengths: &[u8],
    from: u64,
    to: u64,
    out: &mut [u64],
    crc: impl Fn(&[u8]) -> u32,
) -> Result<u64, Refusal> {
    let plan = Plan::new(volume, offset, lengths, from, to, crc)?;
    let count = plan.count();
    if count > (out.len() / 5) as u64 {
        return Err(NO_ROOM);
    }
    let mut places = out.as_chunks_mut::<5>().0.iter_mut();
    plan.pieces(|piece| {
        piece.split(|run| {
            if let Some(place) = places.next() {
                *place = run;
            }
        })
    });
    Ok(count)
}

/// How many runs a range has, whatever the room.
pub fn run_count(
    volume: &[u8],
    offset: u64,
    lengths: &[u8],
    from: u64,
    to: u64,
) -> Result<u64, Refusal> {
    Ok(Plan::new(volume, offset, lengths, from, to, crc::slicing)?.count())
}

/// The clipped range and the extents that meet it, in rising order.
struct Plan {
    from: u64,
    to: u64,
    kept: Vec<Kept>,
}

/// A stretch of the range: a hole, or what one extent keeps of it.
struct Piece<'a> {
    from: u64,
    to: u64,
    kept: Option<&'a Kept>,
}

impl Plan {
    fn new(
        volume: &[u8],
        offset: u64,
        lengths: &[u8],
        from: u64,
        to: u64,
        crc: impl Fn(&[u8]) -> u32,
    ) -> Result<Plan, Refusal> {
        let mut kept = Vec::new();
        let size = for_each_kept(volume, offset, lengths, crc, |k| {
            if k.from < to && from < k.to {
                kept.push(k);
            }
        })?;
        let to = to.min(size);
        kept.retain(|k| k.from < to);
        kept.sort_unstable_by_key(|k| k.from);
        Ok(Plan { from, to, kept })
    }

    /// Visits the pieces in rising order; none is empty.
    fn pieces(&self, mut visit: impl FnMut(Piece)) {
        let mut at = self.from;
        if at >= self.to {
            return;
        }
        for kept in &self.kept {
            if at < kept.from {
                visit(Piece {
                    from: at,
                    to: kept.from,
                    kept: None,
                });
                at = kept.from;
            }
            let end = kept.to.min(self.to);
            visit(Piece {
                from: at,
                to: end,
                kept: Some(kept),
            });
            at = end;
        }
        if at < self.to {
            visit(Piece {
                from: at,
                to: self.to,
                kept: None,
            });
        }
    }

    /// Counts without walking copies: there may be 2^63 of them. Each run
    /// has its own position, so the sum stays below 2^64.
    fn count(&self) -> u64 {
        let mut count = 0;
        self.pieces(|piece| count += piece.count());
        count
    }
}

impl Piece<'_> {
    fn count(&self) -> u64 {
        match self.kept {
            Some(kept) if kept.extent.multiplicity != COUNTED => {
                let first = kept.raw_of(self.from) / kept.extent.size;
                let last = kept.raw_of(self.to - 1) / kept.extent.size;
                last - first + 1
            }
            _ => 1,
        }
    }

    /// Visits the runs of this piece.
    fn split(&self, mut visit: impl FnMut([u64; 5])) {
        let Some(kept) = self.kept else {
            return visit([self.from, self.to - self.from, 0, 0, 0]);
        };
        let extent = &kept.extent;
        let mut at = self.from;
        while at < self.to {
            let raw = kept.raw_of(at);
            let mut length = self.to - at;
            if extent.multiplicity != COUNTED {
                length = length.min(extent.size - raw % extent.size);
            }
            visit([at, length, 1, extent.volume, kept.offset_of(raw)]);
            at += length;
        }
    }
}
