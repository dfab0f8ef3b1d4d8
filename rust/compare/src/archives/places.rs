//! Stored bytes at any place of a set's volumes.

use generator::rng::Rng;
use hdrfs::{ArchiveError, Physical, Stored};

use super::opening::Both;
use super::reading::{failed, same_bytes};
use crate::difference::{same, Difference};

/// Places for each set.
const PLACES: u64 = 12;

/// Compares bytes at places of all kinds: inside, at the end, beyond it, and where no volume is.
///
/// # Errors
///
/// The first thing that differs.
pub fn compare(rng: &mut Rng, both: &Both<'_>) -> Result<(), Difference> {
    let numbers: Vec<u64> = both.independent.volumes().keys().copied().collect();
    for _ in 0..PLACES {
        let volume = match rng.below(6) {
            0 => rng.number(),
            _ => rng.pick(&numbers),
        };
        let expected = both.independent.volumes().get(&volume);
        let length = expected.map_or(0, |bytes| bytes.len() as u64);
        let offset = match rng.below(8) {
            0 => rng.number(),
            1 => (length + rng.below(3)).saturating_sub(1),
            _ => rng.between(0, length),
        };
        let room = rng.between(0, 200);
        let to = offset.checked_add(room).filter(|&to| to <= length);
        let part = to.and_then(|to| expected?.get(offset as usize..to as usize));
        place(both, volume, offset, room as usize, part)?;
    }
    Ok(())
}

/// One place. Bytes that are not there are no reason to change the room for them.
fn place(
    both: &Both<'_>,
    volume: u64,
    offset: u64,
    room: usize,
    expected: Option<&[u8]>,
) -> Result<(), Difference> {
    let question = || format!("{room} bytes at {offset} of volume {volume}");
    let stored = Stored {
        volume,
        offset: Physical(offset),
    };
    let mut given = vec![0xEE; room];
    let answer = both.proved.read_at(stored, &mut given);
    match (answer, expected) {
        (Ok(()), Some(expected)) => same_bytes(&given, expected, offset),
        (Ok(()), None) => same(Some("bytes"), None, question),
        (Err(error), Some(_)) => Err(failed(&question(), &error)),
        (Err(error), None) => {
            let absent = both.independent.volumes().get(&volume).is_none();
            let told = matches!(&error, ArchiveError::NoVolume { sequence } if *sequence == volume);
            same(told, absent, || format!("{}: {error}", question()))
        }
    }
}
