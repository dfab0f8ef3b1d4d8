//! Blocks to be cut, and repair by trying every beginning.

use independent::*;

use super::*;

/// A table of 32 bytes.
pub fn small_table() -> Vec<u8> {
    table(1, &table_link(5, 1, b"g"))
}

/// Every kind of block but the table.
pub fn every_kind(time: u64) -> [Vec<u8>; 9] {
    let extent = extents(&[(0, 97, 3, 67, 1, 0, 0, 0)]);
    [
        inode(time, REGULAR, 3, &extent),
        inode(time, SYMBOLIC, 75, b"gauge"),
        inode(time, FOLDER, 70, b""),
        link(2, time, b"gauge"),
        link(3, time, b"g"),
        xattr(time, b"unit", b"m"),
        removed_xattr(time, b"unit"),
        data(time, b"1,5"),
        rename(time, b"a", b"bc"),
    ]
}

/// The answer by the words of the rules, with every beginning tried. A header
/// or a table that is not whole leaves none that is accepted.
pub fn tried(volume: &[u8]) -> Result<u64, Refusal> {
    match check(volume) {
        Verdict::Accepted { .. } => Ok(volume.len() as u64),
        Verdict::Refused { refusal, .. } if refusal == Refusal::of(2) => {
            longest_accepted(volume).ok_or(refusal)
        }
        Verdict::Refused { refusal, .. } => Err(refusal),
    }
}
