//! The calls that take SHA-256 digests, and the one that compares two neighbouring volumes.

use super::{raw, Paired};

// Sound for the same reasons as the calls that read; a state and the room for a digest are lent to
// nobody else during a call, and the library writes within their lengths.

/// Writes the SHA-256 digest of bytes, 32 bytes long, to the beginning of `out`. Answers a refusal
/// number, 0 where it is done.
///
/// ```
/// let mut out = [9; 33];
/// assert_eq!(hdrfs::sys::sha256(b"abc", &mut out), 0);
/// assert_eq!((out[..4].to_vec(), out[32]), (vec![0xba, 0x78, 0x16, 0xbf], 9));
/// assert_eq!(hdrfs::sys::sha256(b"abc", &mut [0; 31]), 17);
/// ```
#[must_use]
pub fn sha256(bytes: &[u8], out: &mut [u8]) -> u64 {
    // SAFETY: see above.
    unsafe { raw::hdrfs_sha256(bytes.as_ptr(), bytes.len(), out.as_mut_ptr(), out.len()) }
}

/// Begins a digest: writes the state of one to which nothing was fed, 104 bytes. Answers a refusal
/// number, 0 where it is done.
///
/// ```
/// let mut state = [9; 104];
/// assert_eq!(hdrfs::sys::sha256_start(&mut state), 0);
/// assert_eq!(state[32..], [0; 72]);
/// assert_eq!(hdrfs::sys::sha256_start(&mut state[..103]), 17);
/// ```
#[must_use]
pub fn sha256_start(state: &mut [u8]) -> u64 {
    // SAFETY: see above.
    unsafe { raw::hdrfs_sha256_start(state.as_mut_ptr(), state.len()) }
}

/// Feeds a part to a digest. Answers a refusal number, 0 where it is done.
///
/// ```
/// let mut state = [0; 104];
/// assert_eq!(hdrfs::sys::sha256_start(&mut state), 0);
/// assert_eq!(hdrfs::sys::sha256_feed(&mut state, b"abc"), 0);
/// assert_eq!((state[32], &state[40..44]), (3, &b"abc\0"[..]));
/// ```
#[must_use]
pub fn sha256_feed(state: &mut [u8], part: &[u8]) -> u64 {
    let (bytes, len) = (part.as_ptr(), part.len());
    // SAFETY: see above.
    unsafe { raw::hdrfs_sha256_feed(state.as_mut_ptr(), state.len(), bytes, len) }
}

/// Writes the digest of all that was fed, 32 bytes long, to the beginning of `out`; the state stays
/// as it is. Answers a refusal number, 0 where it is done.
///
/// ```
/// let (mut state, mut out) = ([0; 104], [0; 32]);
/// assert_eq!(hdrfs::sys::sha256_start(&mut state), 0);
/// assert_eq!(hdrfs::sys::sha256_finish(&state, &mut out), 0);
/// assert_eq!(out[..4], [0xe3, 0xb0, 0xc4, 0x42]);
/// ```
#[must_use]
pub fn sha256_finish(state: &[u8], out: &mut [u8]) -> u64 {
    let (bytes, len) = (state.as_ptr(), state.len());
    // SAFETY: see above.
    unsafe { raw::hdrfs_sha256_finish(bytes, len, out.as_mut_ptr(), out.len()) }
}

/// Whether the second volume follows the first.
///
/// ```
/// # std::env::set_current_dir("../../crates/samples/data")?;
/// let (first, second) = (std::fs::read("v.vol")?, std::fs::read("wrong_block_sum.vol")?);
/// assert_eq!(hdrfs::sys::pair(&first, &first).refusal, 23);
/// let paired = hdrfs::sys::pair(&first, &second);
/// assert_eq!((paired.refusal, paired.which, paired.offset), (5, 2, 80));
/// # Ok::<(), std::io::Error>(())
/// ```
#[must_use]
pub fn pair(first: &[u8], second: &[u8]) -> Paired {
    let (bytes, len) = (second.as_ptr(), second.len());
    // SAFETY: see above.
    unsafe { raw::hdrfs_pair(first.as_ptr(), first.len(), bytes, len) }
}
