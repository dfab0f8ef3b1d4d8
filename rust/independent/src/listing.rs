//! The listing of a volume as text.

use std::fmt::Write;

use crate::block::{read, Reading};
use crate::header::read_header;
use crate::refusal::{Refusal, TOO_LONG};

/// The longest volume that is listed, in bytes.
pub const LISTING_LIMIT: usize = 65_536;

/// A heading, a line for each accepted block and a closing line.
pub fn listing(volume: &[u8]) -> String {
    let mut text = String::from("offset id length\n");
    let last = if volume.len() > LISTING_LIMIT {
        Err((TOO_LONG, 0))
    } else {
        list_blocks(volume, &mut text)
    };
    match last {
        Ok((offset, blocks)) => writeln!(text, "end {offset} blocks {blocks}"),
        Err((refusal, offset)) => writeln!(text, "refused {} at {offset}", refusal.number),
    }
    .expect("a string takes all text");
    text
}

/// The end and the number of blocks, or the refusal and where.
fn list_blocks(volume: &[u8], text: &mut String) -> Result<(u64, u64), (Refusal, u64)> {
    let mut mark = read_header(volume).map_err(|refusal| (refusal, 0))?.next;
    loop {
        match read(volume, mark).map_err(|refusal| (refusal, mark.offset))? {
            Reading::End => return Ok((mark.offset, mark.number)),
            Reading::Block(block, next) => {
                writeln!(text, "{} {} {}", block.offset, block.id, block.length)
                    .expect("a string takes all text");
                mark = next;
            }
        }
    }
}
