//! Stored bytes, handed on as they lie.

use crate::header::read_header;
use crate::refusal::{Refusal, NOT_THERE};

/// Looks for the volume of this number, in `first` before `second`, and
/// gives `length` bytes of it from `offset` on. Both headers must be sound.
pub fn fetch<'a>(
    first: &'a [u8],
    second: &'a [u8],
    number: u64,
    offset: u64,
    length: u64,
) -> Result<&'a [u8], Refusal> {
    let one = read_header(first)?.sequence;
    let two = read_header(second)?.sequence;
    let volume = if one == number {
        first
    } else if two == number {
        second
    } else {
        return Err(NOT_THERE);
    };
    match offset.checked_add(length) {
        Some(end) if end <= volume.len() as u64 => Ok(&volume[offset as usize..end as usize]),
        _ => Err(NOT_THERE),
    }
}
