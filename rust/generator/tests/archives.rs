//! Archives are what their kind says, and have in them what they are made for.

mod common;

use std::collections::BTreeMap;

use common::Found;
use generator::archive::{archive, chained, describe, Archive, Kind};
use generator::image::PREVIOUS;
use independent::extent::{extents, REPEATED};
use independent::{lookup, pair, runs, set_faults, sha256, Extent, File, Inode, Pair, Place};
use independent::{Set, SetFault};

const SEEDS: u64 = 3_000;

/// Files up to this size are read as a whole.
const WHOLE: u64 = 1 << 16;

fn lent(archive: &Archive) -> Vec<&[u8]> {
    archive.volumes.iter().map(Vec::as_slice).collect()
}

/// The kind that a set's faults say.
fn fits(kind: Kind, faults: &[SetFault]) -> bool {
    let of = |wanted: fn(&SetFault) -> bool| !faults.is_empty() && faults.iter().all(wanted);
    match kind {
        Kind::Whole | Kind::Gaps | Kind::Far => faults.is_empty(),
        Kind::Foreign => of(|fault| matches!(fault, SetFault::Foreign { .. })),
        Kind::Double => of(|fault| matches!(fault, SetFault::Double { .. })) && faults.len() == 1,
        Kind::Damaged | Kind::NotText => {
            of(|fault| matches!(fault, SetFault::Refused { .. })) && faults.len() == 1
        }
    }
}

#[test]
fn sets_are_as_made() {
    let mut kinds = BTreeMap::new();
    let mut counts = BTreeMap::new();
    let mut bytes = 0;
    for seed in 0..SEEDS {
        let archive = archive(seed);
        let faults = set_faults(&lent(&archive));
        assert!(
            fits(archive.kind, &faults),
            "{faults:?}\n{}",
            describe(&archive)
        );
        *kinds.entry(archive.kind).or_insert(0) += 1;
        *counts.entry(archive.volumes.len()).or_insert(0) += 1;
        bytes += archive.volumes.concat().len() as u64;
    }
    println!(
        "{kinds:?}\nvolumes {counts:?}\n{} bytes each",
        bytes / SEEDS
    );
    assert!(Kind::ALL.iter().all(|kind| kinds[kind] > 50), "{kinds:?}");
    assert!((1..=12).all(|many| counts[&many] > 50), "{counts:?}");
    assert!(bytes / SEEDS < 40_000);
}

#[test]
fn a_seed_gives_one_archive() {
    for seed in 0..200 {
        let (one, two) = (archive(seed), archive(seed));
        assert_eq!((one.kind, one.volumes), (two.kind, two.volumes));
        assert_eq!(one.numbers, two.numbers);
    }
    assert_ne!(archive(1).volumes, archive(2).volumes);
}

fn digest(bytes: &[u8]) -> [u8; 32] {
    sha256(bytes).expect("at most 16 MiB")
}

/// Without the hash and the checksum of the header, which covers it.
fn without_hash(volume: &[u8]) -> [&[u8]; 2] {
    let mut parts = [volume, &[]];
    if volume.len() >= 80 {
        parts = [&volume[..PREVIOUS.start], &volume[80..]];
    }
    parts
}

/// Volumes whose numbers are neighbours follow on each other in chained
/// archives, and nothing but the hashes is other than in those not chained.
#[test]
fn chained_archives_have_true_hashes() {
    let (mut linked, mut broken) = (0, 0);
    for seed in 0..SEEDS / 2 {
        let (plain, archive) = (archive(seed), chained(seed, digest));
        assert_eq!(
            (plain.kind, &plain.numbers),
            (archive.kind, &archive.numbers)
        );
        assert_eq!(plain.volumes.len(), archive.volumes.len());
        for (one, two) in plain.volumes.iter().zip(&archive.volumes) {
            assert_eq!(
                without_hash(one),
                without_hash(two),
                "{}",
                describe(&archive)
            );
        }
        let faults = set_faults(&lent(&archive));
        assert!(fits(archive.kind, &faults), "{}", describe(&archive));
        let (Ok(set), Ok(plain)) = (Set::new(&lent(&archive)), Set::new(&lent(&plain))) else {
            continue;
        };
        for &number in set.volumes().keys() {
            let two = |set: &Set<'_>| {
                let before = set.volumes().get(&number.checked_sub(1)?)?;
                Some(pair(before, set.volumes()[&number]))
            };
            let Some(answer) = two(&set) else {
                continue;
            };
            assert_eq!(answer, Pair::default(), "{}", describe(&archive));
            linked += 1;
            let refusal = two(&plain).map(|answer| answer.refusal);
            broken += usize::from(refusal == Some(23));
        }
    }
    println!("{linked} linked, {broken} of them not so if not chained");
    assert!(linked > 3_000 && broken == linked);
}

impl Found {
    fn set(&mut self, set: &Set<'_>) {
        self.note("numbers are missing", !set.missing().is_empty());
        for (&number, inode) in set.inodes() {
            let kind = inode.stat.mode >> 12;
            self.note("symbolic link", kind == 10);
            self.note("other type", kind != 10 && kind != 8);
            self.note("no link", inode.last_link.is_none());
            let taken_away = inode.last_link.map(|link| link.taken_away);
            self.note("linked", taken_away == Some(false));
            self.note("unlinked", taken_away == Some(true));
            self.superseded(set, number, inode);
            match set.file(number) {
                Ok(file) => {
                    let far = set.volumes().keys().any(|&sequence| sequence >= 4_096);
                    let stored = file.runs(0, 99).iter().any(|run| run[2] == 1);
                    self.note("stored beside a far volume", far && stored);
                    self.file(inode, &file);
                }
                Err(independent::FileRefusal::NotThere(lacking)) => {
                    self.note("lacks volumes", !lacking.volumes.is_empty());
                    self.note("reaches beyond", !lacking.beyond.is_empty());
                    let both = !lacking.beyond.is_empty() && !lacking.volumes.is_empty();
                    self.note("lacks both", both);
                }
                Err(_) => {}
            }
        }
    }

    /// Inode blocks that another one of the same number replaces.
    fn superseded(&mut self, set: &Set<'_>, number: u64, current: &Inode<'_>) {
        for (&volume, bytes) in set.volumes() {
            let alone = Set::new(&[bytes]).expect("a volume of a set");
            let Some(older) = alone.inodes().get(&number) else {
                continue;
            };
            let elsewhere = volume != current.volume;
            self.note("replaced in a later volume", elsewhere);
            let later = elsewhere && older.stat.time > current.stat.time;
            self.note("replaced by an earlier time", later);
            let equal = elsewhere && older.stat.time == current.stat.time;
            self.note("replaced by an equal time", equal);
            let kinds = [older.stat.mode >> 12, current.stat.mode >> 12];
            self.note("replaced by another type", kinds[0] != kinds[1]);
            if !elsewhere {
                let field = [&[1][..], &number.to_le_bytes()].concat();
                let mut front = bytes[..current.offset as usize].windows(9);
                self.note("replaced in its volume", front.any(|part| part == field));
            }
        }
    }

    fn file(&mut self, inode: &Inode<'_>, file: &File<'_>) {
        let list: Vec<Extent> = extents(inode.variable.bytes).collect();
        let kept: Vec<&Extent> = list.iter().filter(|e| e.kept() != Some(0)).collect();
        let end = |e: &Extent| e.logical + e.kept().expect("a sound extent");
        self.note("extent that keeps nothing", kept.len() < list.len());
        self.note("very many extents", list.len() == 1_024);
        self.note("size 0", file.size() == 0);
        self.note("size of 2^63 or more", file.size() >= 1 << 63);
        self.note(
            "extent above the size",
            kept.iter().any(|e| e.logical >= file.size()),
        );
        self.note(
            "extent over the size",
            kept.iter().any(|e| end(e) > file.size()),
        );
        self.note("hole at the end", kept.iter().all(|e| end(e) < file.size()));
        self.note("copies", kept.iter().any(|e| e.multiplicity == REPEATED));
        let trimmed = |e: &&&Extent| e.multiplicity == REPEATED && e.pre > e.size;
        self.note("more than a copy trimmed", kept.iter().any(|e| trimmed(&e)));
        let mut volumes: Vec<u64> = kept.iter().map(|e| e.volume).collect();
        self.note("after its data", volumes.iter().any(|&v| v < inode.volume));
        self.note("before its data", volumes.iter().any(|&v| v > inode.volume));
        volumes.sort_unstable();
        volumes.dedup();
        self.note("file over three volumes", volumes.len() >= 3);
        if file.size() <= WHOLE {
            let runs = file.runs(0, file.size());
            self.note("hole inside", runs.windows(2).any(|pair| pair[0][2] == 0));
            self.note("bytes", !file.bytes(0, 9).is_empty());
        }
    }
}

#[test]
fn everything_occurs() {
    let mut found = Found::default();
    for seed in 0..SEEDS {
        let archive = archive(seed);
        if let Ok(set) = Set::new(&lent(&archive)) {
            found.set(&set);
        }
    }
    println!("{:#?}", found.0);
    for (what, count) in found.0 {
        let least = if what == "very many extents" { 3 } else { 40 };
        assert!(count >= least, "{what}: {count}");
    }
}

/// The lengths of a set's volumes as a lookup takes them; 0 for one that is
/// not there, since no kept byte fits into it.
fn lengths(set: &Set<'_>) -> Vec<u8> {
    let known = set.volumes().range(..4_096);
    let mut list = vec![
        0;
        known
            .clone()
            .last()
            .map_or(0, |(&last, _)| last as usize + 1)
    ];
    for (&sequence, bytes) in known {
        list[sequence as usize] = bytes.len() as u64;
    }
    list.into_iter().flat_map(u64::to_le_bytes).collect()
}

/// A set's files are those that lookups find, one position after another.
#[test]
fn sets_agree_with_lookups() {
    let mut compared = 0;
    for seed in 0..SEEDS / 4 {
        let archive = archive(seed);
        let Ok(set) = Set::new(&lent(&archive)) else {
            continue;
        };
        let lengths = lengths(&set);
        for (&number, inode) in set.inodes() {
            let volume = set.volumes()[&inode.volume];
            let at = |position| lookup(volume, inode.offset, &lengths, position);
            let file = match set.file(number) {
                Ok(file) => file,
                Err(refusal) => {
                    assert_eq!(at(0).err(), refusal.refusal(), "{}", describe(&archive));
                    continue;
                }
            };
            for position in (0..file.size().min(3_000)).chain([file.size()]) {
                let expected = match at(position).expect("a file") {
                    Place::Hole => Some(0),
                    Place::PastEnd => None,
                    Place::Stored { volume, offset } => {
                        Some(set.volumes()[&volume][offset as usize])
                    }
                };
                assert_eq!(file.byte(position), expected, "{}", describe(&archive));
                compared += 1;
            }
            let mut rows = vec![0; 5 * 3_000];
            let count = runs(volume, inode.offset, &lengths, 0, 3_000, &mut rows);
            let rows = &rows.as_chunks().0[..count.expect("room for all") as usize];
            assert_eq!(file.runs(0, 3_000), rows, "{}", describe(&archive));
        }
    }
    println!("{compared} positions");
    assert!(compared > 100_000);
}
