//! Full volumes to repair.

use super::{data_blocks, LIMIT};
use crate::image;

/// A volume that ends too early, or seems to, and how many of its bytes are kept.
pub struct Torn {
    pub name: &'static str,
    pub volume: Vec<u8>,
    pub kept: u64,
}

/// The volumes to repair, made one at a time.
pub fn torn_inputs() -> impl Iterator<Item = Torn> {
    let list: [fn() -> Torn; 2] = [last_block_cut, first_length_damaged];
    list.into_iter().map(|make| make())
}

/// Nearly all is kept, and read for that.
fn last_block_cut() -> Torn {
    let mut volume = data_blocks(LIMIT, 1_000);
    let last = image::blocks(&volume).pop().expect("a block");
    volume.truncate(last.start + last.len() / 2);
    Torn {
        name: "data blocks of 1,000 bytes, the last one cut",
        volume,
        kept: last.start as u64,
    }
}

/// Nearly nothing is kept: the first block goes beyond the end by one byte.
fn first_length_damaged() -> Torn {
    let mut volume = data_blocks(LIMIT, 1_000);
    let length = (LIMIT - 80 - 21 + 1) as u64;
    volume[89..97].copy_from_slice(&length.to_le_bytes());
    Torn {
        name: "data blocks of 1,000 bytes, first length damaged",
        volume,
        kept: 80,
    }
}
