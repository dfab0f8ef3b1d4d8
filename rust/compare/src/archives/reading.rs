//! A file of an archive, read through `Read` and `Seek`.
//!
//! What is expected is worked out position by position. A reader may give fewer bytes than it is
//! asked for, but none only at the end of the file.

use std::io::{Read, Seek, SeekFrom};

use generator::rng::Rng;
use independent::File;

use crate::difference::{same, Difference};

/// Files up to this size are read as a whole.
pub const WHOLE: u64 = 1 << 16;

/// Seeks for each file, and for each that is not read as a whole. There may be a run for every byte of
/// those, and then each seek takes long.
const SEEKS: u64 = 24;
const FEW_SEEKS: u64 = 8;

/// The most bytes that are asked for at once after a seek.
const PART: u64 = 300;

/// Reads a file from the beginning to the end, in pieces of any length. Answers how many bytes.
///
/// # Errors
///
/// The first thing that differs.
pub fn whole<R: Read>(rng: &mut Rng, reader: &mut R, file: &File<'_>) -> Result<u64, Difference> {
    let expected = file.bytes(0, u64::MAX);
    let mut given = Vec::with_capacity(expected.len());
    let most = rng.pick(&[1, 7, 64, 5_000, 100_000]);
    loop {
        let mut piece = vec![0xEE; 1 + rng.index(most)];
        let count = reader
            .read(&mut piece)
            .map_err(|error| failed("read", &error))?;
        if count == 0 {
            break;
        }
        given.extend_from_slice(&piece[..count]);
        if given.len() > expected.len() {
            break;
        }
    }
    same_bytes(&given, &expected, 0)?;
    Ok(expected.len() as u64)
}

/// Reads parts of a file after seeks of every kind, to places near `points` and elsewhere. Answers how
/// many bytes.
///
/// # Errors
///
/// The first thing that differs.
pub fn parts<R: Read + Seek>(
    rng: &mut Rng,
    reader: &mut R,
    file: &File<'_>,
    points: &[u64],
) -> Result<u64, Difference> {
    let mut compared = 0;
    let mut at = position(reader)?;
    let seeks = if file.size() <= WHOLE {
        SEEKS
    } else {
        FEW_SEEKS
    };
    for _ in 0..seeks {
        let target = target(rng, file.size(), points);
        at = seek(rng, reader, at, target, file.size())?;
        for _ in 0..rng.below(3) {
            let count = part(rng, reader, at, file)?;
            at += count;
            compared += count;
        }
        same(position(reader)?, at, || "position after reading".into())?;
    }
    Ok(compared)
}

/// Where to seek: near the edge of an extent, near the end, or anywhere.
fn target(rng: &mut Rng, size: u64, points: &[u64]) -> u64 {
    let near = rng.below(4);
    match rng.below(8) {
        0 => rng.between(0, size),
        1 => size.saturating_sub(near),
        2 => size.saturating_add(near),
        3 => rng.number(),
        _ if points.is_empty() => near,
        _ => {
            let point = rng.pick(points);
            point.saturating_add(near).saturating_sub(2)
        }
    }
}

/// One seek, by any of the three kinds that can say the place. Answers the position after it. Places
/// before the beginning and beyond the last number are refused and move nothing.
fn seek<R: Seek>(
    rng: &mut Rng,
    reader: &mut R,
    at: u64,
    target: u64,
    size: u64,
) -> Result<u64, Difference> {
    let away = |from: u64| i64::try_from(i128::from(target) - i128::from(from));
    let (how, place) = match (rng.below(4), away(at), away(size)) {
        (0, Ok(by), _) => (SeekFrom::Current(by), Some(target)),
        (1, _, Ok(by)) => (SeekFrom::End(by), Some(target)),
        (2, ..) => {
            let by = rng.number() as i64;
            let by = rng.pick(&[by, by.wrapping_neg()]);
            let (how, from) = rng.pick(&[(SeekFrom::Current(by), at), (SeekFrom::End(by), size)]);
            (how, from.checked_add_signed(by))
        }
        _ => (SeekFrom::Start(target), Some(target)),
    };
    let question = || format!("seek to {how:?} from {at} in {size} bytes");
    same(reader.seek(how).ok(), place, question)?;
    let now = place.unwrap_or(at);
    same(position(reader)?, now, || {
        format!("position after {}", question())
    })?;
    Ok(now)
}

/// One reading at a position. Answers how many bytes were given.
fn part<R: Read>(
    rng: &mut Rng,
    reader: &mut R,
    at: u64,
    file: &File<'_>,
) -> Result<u64, Difference> {
    let room = rng.below(PART);
    let mut piece = vec![0xEE; room as usize];
    let count = reader
        .read(&mut piece)
        .map_err(|error| failed("read", &error))?;
    let expected = file.bytes(at, at.saturating_add(room));
    let question = || format!("whether {room} bytes from {at} are none");
    same(count == 0, expected.is_empty(), question)?;
    // Fewer are right, more are not.
    let count = count.min(piece.len());
    let expected = &expected[..count.min(expected.len())];
    same_bytes(&piece[..count], expected, at)?;
    Ok(count as u64)
}

fn position<R: Seek>(reader: &mut R) -> Result<u64, Difference> {
    reader
        .stream_position()
        .map_err(|error| failed("position", &error))
}

/// Bytes from a position on; only the first that differs is shown.
pub(crate) fn same_bytes(given: &[u8], expected: &[u8], from: u64) -> Result<(), Difference> {
    if given == expected {
        return Ok(());
    }
    let pairs = given.iter().zip(expected);
    let place = pairs.take_while(|(one, two)| one == two).count();
    let at = from + place as u64;
    let question = || {
        format!(
            "the byte at {at}, of {} given and {} expected",
            given.len(),
            expected.len()
        )
    };
    same(given.get(place), expected.get(place), question)
}

/// Something that failed where nothing may.
pub(crate) fn failed(what: &str, error: &dyn std::fmt::Display) -> Difference {
    let told = same(Some(error.to_string()), None, || what.into());
    told.expect_err("something is not nothing")
}

#[cfg(test)]
mod tests {
    use std::io::{self, Cursor, Read, Seek, SeekFrom};

    use generator::archive::archive;
    use generator::rng::Rng;
    use independent::{File, Set};

    use super::{parts, whole};

    /// What a reader does wrong.
    #[derive(Clone, Copy, Debug, PartialEq, Eq)]
    enum Slip {
        Nothing,
        /// The last byte is left out.
        EndsEarly,
        /// Every hole begins with a byte that is not 0.
        DirtyHole,
        /// A seek from the end goes one too far.
        SeeksFromEnd,
        /// A refused seek moves to the beginning.
        MovesAnyway,
        /// The position does not go on while reading.
        Stays,
    }

    /// Gives at most nine bytes at a time.
    struct Model<'a> {
        bytes: Cursor<&'a [u8]>,
        slip: Slip,
    }

    impl Read for Model<'_> {
        fn read(&mut self, room: &mut [u8]) -> io::Result<usize> {
            let at = self.bytes.position();
            let most = room.len().min(9);
            let mut count = self.bytes.read(&mut room[..most])?;
            let end = self.bytes.get_ref().len() as u64;
            match self.slip {
                Slip::EndsEarly if at < end && at + count as u64 == end => count -= 1,
                Slip::DirtyHole => {
                    if let Some(hole) = room[..count].iter().position(|&byte| byte == 0) {
                        room[hole] = 1;
                    }
                }
                Slip::Stays => self.bytes.set_position(at),
                _ => {}
            }
            Ok(count)
        }
    }

    impl Seek for Model<'_> {
        fn seek(&mut self, how: SeekFrom) -> io::Result<u64> {
            let how = match (how, self.slip) {
                (SeekFrom::End(by), Slip::SeeksFromEnd) => SeekFrom::End(by.saturating_add(1)),
                _ => how,
            };
            let moved = self.bytes.seek(how);
            if moved.is_err() && self.slip == Slip::MovesAnyway {
                self.bytes.set_position(0);
            }
            moved
        }
    }

    /// How many of some files are read the same with such a slip.
    fn passed(slip: Slip) -> (u32, u32) {
        let (mut passed, mut tried) = (0, 0);
        for seed in 0..90 {
            let archive = archive(seed);
            let lent: Vec<&[u8]> = archive.volumes.iter().map(Vec::as_slice).collect();
            let Ok(set) = Set::new(&lent) else { continue };
            let files = set
                .inodes()
                .keys()
                .filter_map(|&number| set.file(number).ok());
            for file in files.filter(|file| (1..=5_000).contains(&file.size())) {
                passed += u32::from(reads_the_same(seed, &file, slip));
                tried += 1;
            }
        }
        (passed, tried)
    }

    fn reads_the_same(seed: u64, file: &File<'_>, slip: Slip) -> bool {
        let mut rng = Rng::new(seed);
        let bytes = file.bytes(0, u64::MAX);
        let model = || Model {
            bytes: Cursor::new(&bytes),
            slip,
        };
        whole(&mut rng, &mut model(), file).is_ok()
            && parts(&mut rng, &mut model(), file, &[3]).is_ok()
    }

    #[test]
    fn slips_are_found() {
        let (all, tried) = passed(Slip::Nothing);
        assert!(all == tried && tried > 20, "{all} of {tried}");
        for slip in [
            Slip::EndsEarly,
            Slip::DirtyHole,
            Slip::SeeksFromEnd,
            Slip::MovesAnyway,
            Slip::Stays,
        ] {
            let (passed, tried) = passed(slip);
            println!("{slip:?}: {passed} of {tried} unnoticed");
            assert!(passed < tried, "{slip:?} is not noticed");
        }
    }
}
