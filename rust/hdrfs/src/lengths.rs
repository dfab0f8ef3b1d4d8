//! The lengths of the volumes, as a lookup wants them.

use crate::Refusal;

/// How many bytes a length takes.
const ENTRY_LEN: usize = 8;

/// The most lengths that the library takes.
const MAX_ENTRIES: u64 = 4096;

/// The lengths of the volumes of an archive, by sequence number.
///
/// A volume that is not set has length 0, so that a file stored in it is refused.
///
/// ```
/// use hdrfs::Lengths;
///
/// let mut lengths = Lengths::new();
/// lengths.set(1, 0x0203)?;
/// assert_eq!(lengths.as_bytes(), [0, 0, 0, 0, 0, 0, 0, 0, 3, 2, 0, 0, 0, 0, 0, 0]);
/// # Ok::<(), hdrfs::Refusal>(())
/// ```
#[derive(Clone, Debug, Default, PartialEq, Eq)]
pub struct Lengths {
    bytes: Vec<u8>,
}

impl Lengths {
    /// No lengths yet.
    ///
    /// ```
    /// assert!(hdrfs::Lengths::new().as_bytes().is_empty());
    /// ```
    #[must_use]
    pub fn new() -> Lengths {
        Lengths::default()
    }

    /// Sets the length of the volume with this sequence number.
    ///
    /// Only numbers below 4,096 can be set; others are refused with 9 and change nothing, so that a
    /// sequence number out of a hostile volume does not take memory.
    ///
    /// ```
    /// use hdrfs::Lengths;
    ///
    /// let mut lengths = Lengths::new();
    /// assert!(lengths.set(0, 104).is_ok());
    /// assert_eq!(lengths.set(4096, 104).unwrap_err().number, 9);
    /// ```
    pub fn set(&mut self, sequence: u64, len: u64) -> Result<(), Refusal> {
        if sequence >= MAX_ENTRIES {
            return Err(Refusal::new(Refusal::OVER_LIMIT, 0));
        }
        let at = sequence as usize * ENTRY_LEN;
        let needed = at + ENTRY_LEN;
        if self.bytes.len() < needed {
            self.bytes.resize(needed, 0);
        }
        self.bytes[at..needed].copy_from_slice(&len.to_le_bytes());
        Ok(())
    }

    /// The length of a volume, 0 where it is not set.
    ///
    /// ```
    /// let lengths: hdrfs::Lengths = [104, 659].into_iter().collect();
    /// assert_eq!((lengths.get(1), lengths.get(2)), (659, 0));
    /// ```
    #[must_use]
    pub fn get(&self, sequence: u64) -> u64 {
        let at = usize::try_from(sequence).ok();
        let entry = at.and_then(|at| self.bytes.chunks_exact(ENTRY_LEN).nth(at));
        let entry = entry.and_then(|entry| entry.try_into().ok());
        entry.map_or(0, u64::from_le_bytes)
    }

    /// The lengths as the library takes them, 8 bytes for each, lowest byte first.
    ///
    /// ```
    /// let lengths: hdrfs::Lengths = [104, 659].into_iter().collect();
    /// assert_eq!(lengths.as_bytes().len(), 16);
    /// ```
    #[must_use]
    pub fn as_bytes(&self) -> &[u8] {
        &self.bytes
    }
}

/// The lengths of volume 0, volume 1 and so on. More than 4,096 can be collected, and are refused
/// by every lookup.
impl FromIterator<u64> for Lengths {
    fn from_iter<I: IntoIterator<Item = u64>>(lengths: I) -> Lengths {
        Lengths {
            bytes: lengths.into_iter().flat_map(u64::to_le_bytes).collect(),
        }
    }
}
