//! Pairs of volumes from seeds and at all edges, small pairs with every byte changed, and the chain
//! through archives.
#![forbid(unsafe_code)]

use std::collections::BTreeMap;
use std::num::NonZeroUsize;

use compare::archives::chain;
use compare::archives::folder::Folder;
use compare::pairs::{self, pair};
use compare::seeds::{sum, Seeds, USUAL};
use compare::small;
use compare::tally::{Numbers, Pairs};
use compare::texts::Texts;
use generator::archive::{self, chained, Archive};
use generator::image;
use generator::pair::{self as made, describe, link, Kind, Pair};
use hdrfs::Mismatch;

/// One pair, and one archive, for so many of the seeds that are asked for.
const PAIRS: u64 = 2;
const ARCHIVES: u64 = 25;

/// The digest that pairs are made with.
fn digest(bytes: &[u8]) -> [u8; 32] {
    independent::sha256(bytes).expect("at most 16 MiB")
}

/// Why two accepted volumes are no neighbours.
const REASONS: [&str; 4] = [
    "other file system",
    "other number",
    "other hash",
    "highest number",
];

/// Which of [`REASONS`] it is.
fn place(mismatch: Mismatch) -> usize {
    match mismatch {
        Mismatch::FileSystem => 0,
        Mismatch::Sequence {
            first: u64::MAX, ..
        } => 3,
        Mismatch::Sequence { .. } => 1,
        Mismatch::PreviousHash => 2,
    }
}

#[derive(Default)]
struct Counts {
    pairs: Pairs,
    kinds: BTreeMap<Kind, u64>,
    reasons: [u64; 4],
    texts: Texts,
}

impl Counts {
    /// Compares one pair; what differs is told with its seed and bytes.
    fn compare(&mut self, pair: &Pair) -> Result<(), String> {
        let compared = pairs::compare(pair, &mut self.pairs);
        let (refusal, mismatch) =
            compared.map_err(|difference| format!("{difference}\n{}", describe(pair)))?;
        *self.kinds.entry(pair.kind).or_default() += 1;
        self.texts.note(refusal);
        if let Some(mismatch) = mismatch {
            self.reasons[place(mismatch)] += 1;
        }
        Ok(())
    }

    fn add(&mut self, other: &Counts) {
        self.pairs.add(&other.pairs);
        self.texts.add(&other.texts);
        for (kind, count) in &other.kinds {
            *self.kinds.entry(*kind).or_default() += count;
        }
        for (sum, count) in self.reasons.iter_mut().zip(other.reasons) {
            *sum += count;
        }
    }
}

/// The edges are counted too, since few seeds have a volume that is too long.
#[test]
fn pairs_agree_and_reach_every_refusal() {
    let asked = Seeds::asked();
    let seeds = Seeds {
        count: asked.count.div_ceil(PAIRS),
        ..asked
    };
    let mut all = all_edges();
    let counted = seeds.each(|seed, counts: &mut Counts| counts.compare(&made::pair(seed, digest)));
    all.add(&sum(counted, Counts::add));
    println!("{} seeds from {}", seeds.count, seeds.first);
    println!("with the edges\n{}\n{:?}", all.pairs.table(), all.kinds);
    println!("{REASONS:?}: {:?}\n{}", all.reasons, all.texts);
    if asked.count < USUAL {
        return;
    }
    assert_eq!(all.pairs.faults(), Vec::<String>::new());
    for kind in Kind::ALL {
        let count = all.kinds.get(&kind).copied().unwrap_or(0);
        assert!(count > 50, "{kind:?}: {count}");
    }
    for (reason, count) in REASONS.into_iter().zip(all.reasons) {
        assert!(count > 50, "{reason}: {count}");
    }
    // One pair in 25 is refused for a text, and of these one in five for a later one.
    assert!(!all.texts.are_few(seeds.count / 500), "{}", all.texts);
}

fn all_edges() -> Counts {
    let list = made::edges(digest);
    let places = Seeds {
        first: 0,
        count: list.len() as u64,
    };
    let counted = places.each(|place, counts: &mut Counts| counts.compare(&list[place as usize]));
    let sum = sum(counted, Counts::add);
    // One for each byte of a hash and of an ID, and one that is too long on either side.
    assert!(sum.reasons[2] >= 32 && sum.reasons[0] >= 16);
    assert!(sum.pairs.first[1] > 0 && sum.pairs.second[1] > 0);
    sum
}

/// A small volume, and another that follows it. Of the numbers, every second is of a volume 0.
fn small_pair(number: u64) -> [Vec<u8>; 2] {
    let first = small::volume(number);
    let mut second = small::volume(2 * number + 1).bytes;
    second[image::SEQUENCE].copy_from_slice(&(first.sequence + 1).to_le_bytes());
    link(&first.bytes, &mut second, digest);
    [first.bytes, second]
}

/// Changes every byte of both volumes of some small pairs in each of three ways, and does something
/// with the volume that has the change. Answers what the pairs were told.
fn every_change(then: fn(&mut [u8])) -> Pairs {
    let ways: [fn(u8) -> u8; 3] = [|b| b.wrapping_add(1), |b| b.wrapping_sub(1), |b| b ^ 0x80];
    let seeds = Seeds { first: 0, count: 6 };
    let counted = seeds.each(|number, tally: &mut Pairs| {
        let sound = small_pair(number);
        for which in 0..2 {
            for (at, way) in (0..sound[which].len()).flat_map(|at| ways.map(|way| (at, way))) {
                let mut changed = sound.clone();
                changed[which][at] = way(changed[which][at]);
                then(&mut changed[which]);
                note(&changed, tally).map_err(|told| format!("pair {number}: {told}"))?;
            }
        }
        Ok(())
    });
    let mut sum = Pairs::default();
    for tally in counted.unwrap_or_else(|told| panic!("{told}")) {
        sum.add(&tally);
    }
    println!("{}", sum.table());
    sum
}

/// Compares the answers for two volumes and counts them.
fn note([first, second]: &[Vec<u8>; 2], tally: &mut Pairs) -> Result<(), String> {
    let paired = pair(first, second).map_err(|difference| {
        let [first, second] = [first, second].map(|volume| generator::hex(volume));
        format!("{difference}\nfirst: {first}\nsecond: {second}")
    })?;
    let by_fault = [&mut tally.both, &mut tally.first, &mut tally.second];
    by_fault[paired.which as usize][paired.refusal as usize] += 1;
    Ok(())
}

#[test]
fn small_pairs_follow() {
    let mut tally = Pairs::default();
    for number in 0..6 {
        let noted = note(&small_pair(number), &mut tally);
        noted.unwrap_or_else(|told| panic!("pair {number}: {told}"));
    }
    assert_eq!(tally.both[0], 6);
}

#[test]
fn every_changed_byte() {
    // A checksum shows every such change, so the pair is not come to.
    let told = every_change(|_| {});
    assert_eq!(told.both, Numbers::default());
}

#[test]
fn every_changed_byte_with_mended_checksums() {
    let told = every_change(image::mend);
    // A changed checksum is as it was when it is mended; all else of the first changes its digest.
    assert!(told.both[0] > 1_000 && told.both[23] > 1_000);
    for number in [2, 3, 4, 7, 8, 9, 10, 11, 12, 14] {
        let counts = [told.first[number], told.second[number]];
        assert!(!counts.contains(&0), "{number}: {counts:?}");
    }
}

/// What was compared of archives: neighbours that follow, and the reasons of the others.
#[derive(Default)]
struct Chains {
    next: u64,
    reasons: [u64; 4],
}

impl Chains {
    /// Compares the chain through an archive, from its bytes and from files.
    fn compare(&mut self, archive: &Archive) -> Result<(), String> {
        let told = |difference| format!("{difference}\n{}", archive::describe(archive));
        let reasons = chain::neighbours(archive).map_err(told)?;
        if archive.kind == archive::Kind::Whole && reasons.iter().any(Option::is_some) {
            return Err(format!(
                "{reasons:?} in a whole archive\n{}",
                archive::describe(archive)
            ));
        }
        for reason in reasons {
            match reason {
                None => self.next += 1,
                Some(mismatch) => self.reasons[place(mismatch)] += 1,
            }
        }
        let folder = Folder::new().expect("a folder");
        let paths = folder.store(archive).expect("all volumes written");
        let jobs = NonZeroUsize::new(1 + (archive.seed % 3) as usize).expect("a job at least");
        chain::files(archive, &paths, jobs).map_err(told)
    }
}

/// Archives with true hashes. None goes on behind the highest number.
#[test]
fn chains_of_archives_agree() {
    let asked = Seeds::asked();
    let seeds = Seeds {
        count: asked.count.div_ceil(ARCHIVES),
        ..asked
    };
    let counted = seeds.each(|seed, chains: &mut Chains| chains.compare(&chained(seed, digest)));
    let counted = counted.unwrap_or_else(|told| panic!("{told}"));
    let next: u64 = counted.iter().map(|chains| chains.next).sum();
    println!("{} archives, {next} that follow", seeds.count);
    let enough = asked.count >= USUAL;
    assert!(next > 500 || !enough);
    for (at, reason) in REASONS.into_iter().enumerate().take(3) {
        let count: u64 = counted.iter().map(|chains| chains.reasons[at]).sum();
        println!("{reason}: {count}");
        assert!(count > 0 || !enough, "{reason}: {count}");
    }
}
