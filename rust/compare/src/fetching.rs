//! Stored bytes of two volumes.

use hdrfs::{sys, Physical};
use independent::Refusal;

use crate::answers::Told;
use crate::difference::{same, Answer};
use crate::volume::plain;

/// Where a part begins and how long it is, or the refusal.
type Found = Result<(*const u8, usize), Refusal>;

/// One fetch: number of the volume, offset and length.
pub fn fetch(first: &[u8], second: &[u8], asked: (u64, u64, u64)) -> Answer {
    let (number, offset, len) = asked;
    let part = |bytes: &[u8]| (bytes.as_ptr(), bytes.len());
    let expected = independent::fetch(first, second, number, offset, len).map(part);
    let question = || format!("fetch {asked:?}");
    same(by_source(first, second, asked), expected, question)?;
    let typed = hdrfs::fetch(first, second, number, Physical(offset), len).map(part);
    same(typed.map_err(plain), expected, || question() + " by type")?;
    Ok(expected.err().unwrap_or(Refusal::of(0)))
}

const NOT_REFUSED: Refusal = Refusal::of(0);

/// The part that the answer of the proved library stands for.
fn by_source(first: &[u8], second: &[u8], (number, offset, len): (u64, u64, u64)) -> Found {
    let source = sys::fetch(first, second, number, offset, len);
    match (source.told(), source.which) {
        (NOT_REFUSED, which @ 0..=1) => {
            let volume = [first, second][which as usize];
            let part = &volume[offset as usize..][..len as usize];
            Ok((part.as_ptr(), part.len()))
        }
        (refusal @ Refusal { number: 1.., .. }, 0) => Err(refusal),
        // No such answer exists; it differs from every expected one.
        _ => Err(Refusal::of(u64::MAX)),
    }
}
