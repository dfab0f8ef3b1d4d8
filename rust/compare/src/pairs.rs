//! Two volumes of which the second may follow the first.

use generator::pair::Pair;
use hdrfs::{sys, ChainEntry, Mismatch, PairError, Volume};
use independent::refusal::NOT_NEXT;
use independent::{check, read_header, sha256, Refusal, Verdict};

use crate::answers::{self, Told};
use crate::difference::{same, Difference};
use crate::tally::Pairs;
use crate::volume::{judged, plain, refused, Judged};

/// Why a volume does not follow another.
#[derive(Clone, Copy, Debug, PartialEq, Eq)]
enum Reason {
    /// The first or the second, by number, is refused by itself.
    Own(u64, Judged),
    Between(Mismatch),
}

/// What the place of a volume in the chain depends on: ID, number, previous hash, digest.
type Place = ([u8; 16], u64, [u8; 32], [u8; 32]);

/// The check of a pair in one call. Answers what both gave.
pub fn pair(first: &[u8], second: &[u8]) -> Result<sys::Paired, Difference> {
    let expected = answers::paired(independent::pair(first, second));
    same(sys::pair(first, second), expected, || "pair".into())?;
    Ok(expected)
}

/// The same by the call that gives Rust types.
fn follows(first: &[u8], second: &[u8], paired: &sys::Paired) -> Result<(), Difference> {
    let answer = Volume::follows(first, second);
    if let Err(error) = answer {
        let refusal = error.refusal();
        let told = (plain(refusal), refusal.offset);
        same(told, (paired.told(), paired.offset), || {
            "PairError::refusal".into()
        })?;
    }
    let reason = answer.map_err(|error| match error {
        PairError::First(rejected) => Reason::Own(1, refused(rejected.refusal, rejected.blocks)),
        PairError::Second(rejected) => Reason::Own(2, refused(rejected.refusal, rejected.blocks)),
        PairError::Mismatch(mismatch) => Reason::Between(mismatch),
    });
    same(reason, expected(first, second, paired), || {
        "Volume::follows".into()
    })
}

/// What the independent implementation gives as the reason.
fn expected(first: &[u8], second: &[u8], paired: &sys::Paired) -> Result<(), Reason> {
    match (paired.which, paired.told()) {
        (1, _) => Err(Reason::Own(1, judged(check(first)))),
        (2, _) => Err(Reason::Own(2, judged(check(second)))),
        (_, NOT_NEXT) => Err(Reason::Between(mismatch(first, second))),
        _ => Ok(()),
    }
}

/// The first of the three reasons, where one of them holds of two accepted volumes.
fn mismatch(first: &[u8], second: &[u8]) -> Mismatch {
    let header = |volume| read_header(volume).expect("an accepted volume has a header");
    let (one, two) = (header(first), header(second));
    let (first, second) = (one.sequence, two.sequence);
    if one.id != two.id {
        Mismatch::FileSystem
    } else if first.checked_add(1) != Some(second) {
        Mismatch::Sequence { first, second }
    } else {
        Mismatch::PreviousHash
    }
}

/// A volume taken into the chain by itself. Answers the refusal that both gave, or what the library
/// keeps of it.
pub fn entry(volume: &[u8]) -> Result<Result<ChainEntry, Refusal>, Difference> {
    let answer = ChainEntry::of(volume);
    let told = answer.map(|entry| (entry.id, entry.sequence, entry.previous, entry.digest));
    let told = told.map_err(|rejected| refused(rejected.refusal, rejected.blocks));
    same(told, place(volume), || "ChainEntry::of".into())?;
    Ok(answer.map_err(|rejected| plain(rejected.refusal)))
}

fn place(volume: &[u8]) -> Result<Place, Judged> {
    match check(volume) {
        Verdict::Accepted { .. } => {
            let header = read_header(volume).expect("an accepted volume has a header");
            let digest = sha256(volume).expect("an accepted volume has a digest");
            Ok((*header.id, header.sequence, *header.previous, digest))
        }
        verdict => Err(judged(verdict)),
    }
}

/// Whether the entries of two accepted volumes say the same as the check of the pair, which answers
/// `paired`. Answers the reason why the second does not follow, if there is one.
pub fn entries(
    (first, one): (&[u8], &ChainEntry),
    (second, two): (&[u8], &ChainEntry),
    paired: &sys::Paired,
) -> Result<Option<Mismatch>, Difference> {
    let follows = two.follows(one);
    let told = follows.map_err(Reason::Between);
    same(told, expected(first, second, paired), || {
        "ChainEntry::follows".into()
    })?;
    Ok(follows.err())
}

/// Compares all that can be asked with a generated pair. Answers the refusal and, where both volumes
/// are accepted and are no neighbours, the reason.
pub fn compare(made: &Pair, tally: &mut Pairs) -> Result<(Refusal, Option<Mismatch>), Difference> {
    let (first, second) = (&made.first[..], &made.second[..]);
    let paired = pair(first, second)?;
    as_made(made, &paired)?;
    let by_fault = [&mut tally.both, &mut tally.first, &mut tally.second];
    by_fault[paired.which as usize][paired.refusal as usize] += 1;
    follows(first, second, &paired)?;
    let (one, two) = (entry(first)?, entry(second)?);
    for refusal in [one.err(), two.err()] {
        tally.entry[refusal.map_or(0, |refusal| refusal.number) as usize] += 1;
    }
    let mismatch = match (one, two) {
        (Ok(one), Ok(two)) => entries((first, &one), (second, &two), &paired)?,
        _ => None,
    };
    Ok((paired.told(), mismatch))
}

/// Where the making of the pair fixes the answer, it must be given.
fn as_made(made: &Pair, paired: &sys::Paired) -> Result<(), Difference> {
    let Some(expected) = made.expected else {
        return Ok(());
    };
    let expected = sys::Paired {
        refusal: expected.number,
        text: expected.fault.text,
        start: expected.fault.start,
        which: expected.which,
        offset: expected.offset,
    };
    same(*paired, expected, || "pair against the making of it".into())
}
