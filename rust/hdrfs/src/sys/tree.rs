//! The call that lists the tree below a folder.

use super::{raw, Lines};

/// The tree below the folder `root`, out of the link table at a bookmark, with the table due there
/// whatever was handed out: two numbers a line in `out`, its depth and the place of its link among the
/// table's links. Numbers past the lines keep their values, and so do all on refusal.
///
/// ```
/// # std::env::set_current_dir("../../crates/samples/data")?;
/// let volume = std::fs::read("all_kinds.vol")?;
/// let mut out = [9; 5];
/// let answer = hdrfs::sys::tree(&volume, 80, 0, 0, 0, 1, &mut out);
/// assert_eq!((answer.refusal, answer.lines), (0, 2));
/// assert_eq!(out, [0, 0, 0, 1, 9]);
/// assert_eq!(hdrfs::sys::tree(&volume, 80, 0, 0, 0, 1, &mut out[..3]).refusal, 17);
/// # Ok::<(), std::io::Error>(())
/// ```
#[must_use]
pub fn tree(
    volume: &[u8],
    offset: u64,
    timed: u64,
    last: u64,
    number: u64,
    root: u64,
    out: &mut [u64],
) -> Lines {
    let (numbers, len) = (out.as_mut_ptr(), out.len());
    // SAFETY: sound for the same reasons as the calls that read; `out` is lent to nobody else during
    // the call, and the library writes within its length.
    unsafe {
        raw::hdrfs_tree(
            volume.as_ptr(),
            volume.len(),
            offset,
            timed,
            last,
            number,
            root,
            numbers,
            len,
        )
    }
}
