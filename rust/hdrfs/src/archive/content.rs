//! The bytes of a file at any position: the runs around it, and what is stored for them.

use std::path::Path;

use super::store::Parts;
use super::ArchiveError;
use crate::pace::Pace;
use crate::walk::RUN_LEN;
use crate::{sys, File, Physical, Refusal, Stored};

/// How many runs there is room for: those of any file that repeats no block, so that such a file
/// is asked for once; and then so many that the check of the file, which comes with every question,
/// costs less than they do.
const ROOMS: [usize; 2] = [2 * 1024 + 1, 65_536];

/// The runs of a file, of which those around a position are held. A run is cut where those that are
/// held begin and end.
#[derive(Debug)]
pub(super) struct Pieces<'a> {
    file: File<'a>,
    size: u64,
    /// Room for runs, five numbers each, as the library gives them.
    rows: Vec<[u64; RUN_LEN]>,
    /// How many runs are held, and the one that was looked at last.
    count: usize,
    seen: usize,
    pace: Pace,
}

impl<'a> Pieces<'a> {
    pub(super) fn new(file: File<'a>, size: u64) -> Pieces<'a> {
        Pieces {
            file,
            size,
            rows: Vec::new(),
            count: 0,
            seen: 0,
            pace: Pace::new(),
        }
    }

    /// The runs that are held, from the one at a position on: none at and after the end of the file,
    /// else at least one.
    fn rows(&mut self, position: u64) -> Result<&[[u64; RUN_LEN]], Refusal> {
        if self.size <= position {
            return Ok(&[]);
        }
        if !self.follows(position) && !self.find(position) {
            self.ask(position)?;
        }
        Ok(&self.rows[self.seen..self.count])
    }

    /// Looks for the run at a position where it most often is: at the last place or the next one.
    fn follows(&mut self, position: u64) -> bool {
        let has = |row: &[u64; RUN_LEN]| row[0] <= position && position - row[0] < row[1];
        let rows = &self.rows[..self.count];
        let next = self.seen + 1;
        if rows.get(next).is_some_and(has) {
            self.seen = next;
            return true;
        }
        rows.get(self.seen).is_some_and(has)
    }

    /// Looks for the run at a position among all that are held.
    fn find(&mut self, position: u64) -> bool {
        let rows = &self.rows[..self.count];
        let after = rows.partition_point(|row| row[0] <= position);
        self.seen = after.saturating_sub(1);
        self.follows(position)
    }

    /// Asks for runs that have a position: all of the file if there is room for them.
    fn ask(&mut self, position: u64) -> Result<(), Refusal> {
        self.count = 0;
        for room in ROOMS {
            if self.rows.len() < room {
                self.rows.resize(room, [0; RUN_LEN]);
                if self.hold(0, u64::MAX)? {
                    self.find(position);
                    return Ok(());
                }
            }
        }
        self.pace.moved();
        let room = self.rows.len() as u64;
        loop {
            let to = self.pace.range_end(position, self.size, room);
            if self.hold(position, to)? {
                self.pace
                    .had_room(to - position, to, self.count as u64, room);
                return Ok(());
            }
            // As many positions as there is room for runs always fit; nothing shorter would help.
            assert!(room < to - position, "the runs of a short range fit");
            self.pace.had_no_room(to);
        }
    }

    /// Holds the runs of a range; false where there is no room for them.
    fn hold(&mut self, from: u64, to: u64) -> Result<bool, Refusal> {
        self.seen = 0;
        match self.file.ask(from, to, self.rows.as_flattened_mut()) {
            Ok(count) => {
                self.count = count;
                Ok(true)
            }
            Err(refusal) if refusal.number == Refusal::NO_ROOM => Ok(false),
            Err(refusal) => Err(refusal),
        }
    }
}

/// The bytes of a file.
#[derive(Debug)]
pub(super) struct Content<'a> {
    pieces: Pieces<'a>,
    parts: Parts<'a>,
    /// The volume that has the inode block.
    path: &'a Path,
}

/// Whether a hole is read as zeros, or not read.
#[derive(Clone, Copy, Debug, PartialEq, Eq)]
pub(super) enum Holes {
    Zeros,
    Stop,
}

impl<'a> Content<'a> {
    pub(super) fn new(pieces: Pieces<'a>, parts: Parts<'a>, path: &'a Path) -> Content<'a> {
        Content {
            pieces,
            parts,
            path,
        }
    }

    /// How many positions from one on are known to be a hole; 0 where a byte is stored, and at the
    /// end of the file.
    pub(super) fn hole(&mut self, position: u64) -> Result<u64, ArchiveError> {
        let rows = self.pieces.rows(position);
        let rows = rows.map_err(|refusal| ArchiveError::refused(self.path, refusal))?;
        Ok(match rows {
            [[start, len, kind, ..], ..] if *kind != sys::STORED => len - (position - start),
            _ => 0,
        })
    }

    /// Fills the buffer from a position on, as far as the file goes, up to a hole if it is to stop
    /// there, and until something fails; answers how far. A failure is an error where there is
    /// nothing before it.
    pub(super) fn read(
        &mut self,
        position: u64,
        buf: &mut [u8],
        holes: Holes,
    ) -> Result<usize, ArchiveError> {
        let mut done = 0;
        while done < buf.len() {
            match self.read_rows(position + done as u64, &mut buf[done..], holes) {
                Ok(0) => break,
                Ok(len) => done += len,
                Err(error) if done == 0 => return Err(error),
                Err(_) => break,
            }
        }
        Ok(done)
    }

    /// Fills the buffer from the runs that are held.
    fn read_rows(
        &mut self,
        position: u64,
        buf: &mut [u8],
        holes: Holes,
    ) -> Result<usize, ArchiveError> {
        let rows = self.pieces.rows(position);
        let rows = rows.map_err(|refusal| ArchiveError::refused(self.path, refusal))?;
        let mut done = 0;
        for [start, len, kind, volume, offset] in rows {
            let before = position + done as u64 - start;
            let room = &mut buf[done..];
            let len = (len - before).min(room.len() as u64) as usize;
            if *kind == sys::STORED {
                let place = Stored {
                    volume: *volume,
                    offset: Physical(offset + before),
                };
                match self.parts.read(place, &mut room[..len]) {
                    Err(error) if done == 0 => return Err(error),
                    Err(_) => break,
                    Ok(()) => (),
                }
            } else if holes == Holes::Stop {
                break;
            } else {
                room[..len].fill(0);
            }
            done += len;
            if done == buf.len() {
                break;
            }
        }
        Ok(done)
    }
}
