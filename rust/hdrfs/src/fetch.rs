//! Stored bytes, as parts of the volumes that have them.

use crate::{blocks, sys, Physical, Refusal};

/// `len` bytes at `offset` of the volume with this sequence number: a part of the first volume if
/// it has the number, else of the second. No byte is copied.
///
/// Both headers are checked, even where the first volume has the number. Where there is only one
/// volume, lend it twice.
///
/// ```
/// use hdrfs::{fetch, Physical};
/// # std::env::set_current_dir("../../crates/samples/data")?;
///
/// let (first, second) = (std::fs::read("v.vol")?, std::fs::read("all_kinds.vol")?);
/// assert_eq!(fetch(&first, &second, 0, Physical(97), 3)?, b"1,5");
/// assert_eq!(fetch(&first, &second, 2, Physical(97), 3).unwrap_err().number, 16);
/// # Ok::<(), Box<dyn std::error::Error>>(())
/// ```
pub fn fetch<'a>(
    first: &'a [u8],
    second: &'a [u8],
    number: u64,
    offset: Physical,
    len: u64,
) -> Result<&'a [u8], Refusal> {
    let source = sys::fetch(first, second, number, offset.0, len);
    let fault = match source.refusal {
        Refusal::NOT_THERE => offset.0,
        _ => 0,
    };
    Refusal::unless_accepted(&source, fault, None)?;
    let volume = if source.which == 0 { first } else { second };
    Ok(blocks::part(volume, offset.0, len))
}
