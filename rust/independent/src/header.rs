//! The header of a volume.

use crate::block::Bookmark;
use crate::bytes::{u32_at, u64_at};
use crate::refusal::*;
use crate::{crc, HEADER_LENGTH, VOLUME_LIMIT};

pub const MAGIC_BYTES: [u8; 17] = *b"\xD3HDRFS\r\n\x1A\n\0HDRFS\0";

/// What a header says, and the bookmark after it.
#[derive(Clone, Copy, Debug, PartialEq, Eq)]
pub struct Header<'a> {
    pub id: &'a [u8; 16],
    pub sequence: u64,
    pub previous: &'a [u8; 32],
    pub next: Bookmark,
}

/// The bookmark after the header of the volume with this number.
pub(crate) fn after_header(sequence: u64) -> Bookmark {
    Bookmark {
        due: sequence > 0,
        ..Bookmark::at(HEADER_LENGTH as u64)
    }
}

pub fn read_header(volume: &[u8]) -> Result<Header<'_>, Refusal> {
    if volume.len() > VOLUME_LIMIT {
        return Err(TOO_LONG);
    }
    let bytes: &[u8; HEADER_LENGTH] = volume.first_chunk().ok_or(ENDS_EARLY)?;
    if bytes[..17] != MAGIC_BYTES {
        return Err(MAGIC);
    }
    if bytes[17] != 0 || bytes[34] != 0 || bytes[35] != 0 {
        return Err(VERSION);
    }
    if crc::slicing(&bytes[..76]) != u32_at(bytes, 76) {
        return Err(CHECKSUM);
    }
    let sequence = u64_at(bytes, 36);
    let previous: &[u8; 32] = bytes[44..76].try_into().unwrap();
    if sequence == 0 && *previous != [0; 32] {
        return Err(FIRST_HASH);
    }
    Ok(Header {
        id: bytes[18..34].try_into().unwrap(),
        sequence,
        previous,
        next: after_header(sequence),
    })
}
