//! What can be kept of a volume when power was lost during an append.

use crate::block::{read_with, Reading};
use crate::check::{check, Verdict};
use crate::crc;
use crate::header::read_header;
use crate::refusal::{Refusal, ENDS_EARLY};

/// How many bytes of a volume to keep: all if it is accepted, and those before
/// the block that the volume ends in if that is its first fault. A header or a
/// table that is not whole cannot be kept, nor is any other fault repaired.
///
/// A length damaged in the middle looks like a volume that ends too early.
/// Sound blocks behind such a length are not kept.
pub fn repair(volume: &[u8]) -> Result<u64, Refusal> {
    repair_with(volume, crc::slicing)
}

/// Like [`repair`], with a chosen form of the checksum for the blocks.
pub fn repair_with(volume: &[u8], crc: impl Fn(&[u8]) -> u32) -> Result<u64, Refusal> {
    let mut mark = read_header(volume)?.next;
    loop {
        match read_with(volume, mark, &crc) {
            Ok(Reading::Block(_, next)) => mark = next,
            Ok(Reading::End) => return Ok(mark.offset),
            // A longer beginning has still less of this block than there is,
            // and what there is does not suffice.
            Err(ENDS_EARLY) if !mark.due => return Ok(mark.offset),
            Err(refusal) => return Err(refusal),
        }
    }
}

/// The length of the longest beginning that the check accepts, if it accepts
/// one. Every length is tried, so that nothing about blocks is taken for
/// granted: [`repair`] is tested by it.
pub fn longest_accepted(volume: &[u8]) -> Option<u64> {
    let is_accepted =
        |&length: &usize| matches!(check(&volume[..length]), Verdict::Accepted { .. });
    let longest = (0..=volume.len()).rev().find(is_accepted)?;
    Some(longest as u64)
}
