//! SHA-256 digests.

use std::fmt;
use std::io;

use crate::{sys, Refusal};

/// A SHA-256 digest (FIPS 180-4) of bytes that come in parts, cut anywhere.
///
/// It takes as many bytes as a volume may have, 16,777,216; a part that would make them more is
/// refused with 1, and changes nothing. [`Volume::digest`](crate::Volume::digest) is for bytes that
/// are all at hand.
///
/// ```
/// use hdrfs::{Digest, Volume};
///
/// let mut digest = Digest::new();
/// digest.feed(b"river ")?;
/// digest.feed(b"gauge")?;
/// assert_eq!(digest.finish()?, Volume::digest(b"river gauge")?);
/// # Ok::<(), hdrfs::Refusal>(())
/// ```
///
/// Whatever writes can write to it:
///
/// ```
/// # std::env::set_current_dir("../../crates/samples/data")?;
/// let mut digest = hdrfs::Digest::new();
/// std::io::copy(&mut std::fs::File::open("v.vol")?, &mut digest)?;
/// assert_eq!(digest.finish()?, hdrfs::Volume::digest(&std::fs::read("v.vol")?)?);
/// # Ok::<(), Box<dyn std::error::Error>>(())
/// ```
#[must_use]
#[derive(Clone)]
pub struct Digest {
    state: [u8; Digest::STATE_LEN],
}

/// Where the number of bytes fed stands in a state: behind eight words of 4 bytes.
const FED_AT: usize = 32;

impl Digest {
    /// How many bytes a digest has.
    ///
    /// ```
    /// assert_eq!(hdrfs::Digest::new().finish()?.len(), hdrfs::Digest::LEN);
    /// # Ok::<(), hdrfs::Refusal>(())
    /// ```
    pub const LEN: usize = 32;

    /// How many bytes a state has.
    ///
    /// ```
    /// assert_eq!(hdrfs::Digest::new().state().len(), hdrfs::Digest::STATE_LEN);
    /// ```
    pub const STATE_LEN: usize = 104;

    /// A digest to which nothing was fed.
    ///
    /// ```
    /// let digest = hdrfs::Digest::new().finish()?;
    /// assert_eq!(digest[..4], [0xe3, 0xb0, 0xc4, 0x42]);
    /// # Ok::<(), hdrfs::Refusal>(())
    /// ```
    pub fn new() -> Digest {
        let mut state = [0; Digest::STATE_LEN];
        let refusal = sys::sha256_start(&mut state);
        debug_assert_eq!(refusal, 0, "the state has all its bytes");
        Digest { state }
    }

    /// A digest with a state that was kept, or made up. It is taken as it is, also where its number
    /// of bytes is too high: then feeding and finishing are refused.
    ///
    /// ```
    /// use hdrfs::Digest;
    ///
    /// let mut digest = Digest::new();
    /// digest.feed(b"river ")?;
    /// let mut later = Digest::from_state(*digest.state());
    /// for digest in [&mut digest, &mut later] {
    ///     digest.feed(b"gauge")?;
    /// }
    /// assert_eq!(later.finish(), digest.finish());
    /// # Ok::<(), hdrfs::Refusal>(())
    /// ```
    pub fn from_state(state: [u8; Digest::STATE_LEN]) -> Digest {
        Digest { state }
    }

    /// The state: eight words of 4 bytes and the number of bytes fed in 8, all lowest byte first,
    /// and then 64 held bytes, of which the first are in use, as many as the remainder of that number
    /// by 64.
    ///
    /// ```
    /// let mut digest = hdrfs::Digest::new();
    /// digest.feed(b"abc")?;
    /// assert_eq!((digest.state()[32], &digest.state()[40..43]), (3, &b"abc"[..]));
    /// # Ok::<(), hdrfs::Refusal>(())
    /// ```
    #[must_use]
    pub fn state(&self) -> &[u8; Digest::STATE_LEN] {
        &self.state
    }

    /// How many bytes were fed.
    ///
    /// ```
    /// let mut digest = hdrfs::Digest::new();
    /// digest.feed(b"abc")?;
    /// assert_eq!(digest.fed(), 3);
    /// # Ok::<(), hdrfs::Refusal>(())
    /// ```
    #[must_use]
    pub fn fed(&self) -> u64 {
        let mut number = [0; 8];
        number.copy_from_slice(&self.state[FED_AT..FED_AT + 8]);
        u64::from_le_bytes(number)
    }

    /// Feeds a part. Where it is refused nothing of it is fed.
    ///
    /// ```
    /// use hdrfs::{Digest, MAX_VOLUME_LEN};
    ///
    /// let mut digest = Digest::new();
    /// digest.feed(b"abc")?;
    /// assert_eq!(digest.feed(&vec![0; MAX_VOLUME_LEN - 2]).unwrap_err().number, 1);
    /// assert_eq!(digest.fed(), 3);
    /// # Ok::<(), hdrfs::Refusal>(())
    /// ```
    pub fn feed(&mut self, part: &[u8]) -> Result<(), Refusal> {
        let refusal = sys::sha256_feed(&mut self.state, part);
        Refusal::unless_accepted(&refusal, 0, None)
    }

    /// The digest of all that was fed. More may be fed afterwards. It is refused only where the
    /// state was made up, with a number of bytes that is too high.
    ///
    /// ```
    /// let mut digest = hdrfs::Digest::new();
    /// digest.feed(b"abc")?;
    /// assert_eq!(digest.finish()?[..4], [0xba, 0x78, 0x16, 0xbf]);
    /// # Ok::<(), hdrfs::Refusal>(())
    /// ```
    pub fn finish(&self) -> Result<[u8; Digest::LEN], Refusal> {
        let mut digest = [0; Digest::LEN];
        let refusal = sys::sha256_finish(&self.state, &mut digest);
        Refusal::unless_accepted(&refusal, 0, None)?;
        Ok(digest)
    }
}

impl Default for Digest {
    fn default() -> Digest {
        Digest::new()
    }
}

/// Without the words and the held bytes, which say nothing to a reader.
impl fmt::Debug for Digest {
    fn fmt(&self, f: &mut fmt::Formatter<'_>) -> fmt::Result {
        let mut shown = f.debug_struct("Digest");
        shown.field("fed", &self.fed()).finish_non_exhaustive()
    }
}

/// Writing is feeding. An error has the [`Refusal`] in it, and nothing was written then.
impl io::Write for Digest {
    fn write(&mut self, part: &[u8]) -> io::Result<usize> {
        match self.feed(part) {
            Ok(()) => Ok(part.len()),
            Err(refusal) => Err(io::Error::new(io::ErrorKind::FileTooLarge, refusal)),
        }
    }

    /// There is nothing to wait for.
    fn flush(&mut self) -> io::Result<()> {
        Ok(())
    }
}
