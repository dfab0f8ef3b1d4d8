//! Archives from seeds: what a set holds, and why some volumes are none, is the same on both sides.
#![forbid(unsafe_code)]

use std::collections::BTreeMap;
use std::num::NonZeroUsize;

use compare::archives::files::{self, Counts};
use compare::archives::folder::Folder;
use compare::archives::opening::{self, Both};
use compare::archives::{facts, places};
use compare::seeds::{Seeds, USUAL};
use compare::texts::Texts;
use compare::Difference;
use generator::archive::{archive, describe, Archive, Kind};
use generator::rng::Rng;
use hdrfs::ArchiveError;
use independent::{set_faults, SetFault};

/// One archive for so many of the seeds that are asked for.
const BYTES: u64 = 5;
const FILES: u64 = 25;

/// What was compared, and how many sets of each kind.
#[derive(Default)]
struct Tally {
    kinds: BTreeMap<Kind, u64>,
    inodes: u64,
    files: Counts,
    /// Volumes that are refused for a text.
    texts: Texts,
}

impl Tally {
    /// Compares all of a set.
    fn compare(
        &mut self,
        archive: &Archive,
        opened: Result<hdrfs::Archive, ArchiveError>,
    ) -> Result<(), Difference> {
        *self.kinds.entry(archive.kind).or_default() += 1;
        self.note_texts(archive);
        match opening::compare(archive, opened)? {
            Some(both) => self.contents(archive, &both),
            None => Ok(()),
        }
    }

    /// Counts what the one volume at fault says of a text. Where several are at fault, any may be told.
    fn note_texts(&mut self, archive: &Archive) {
        let lent: Vec<&[u8]> = archive.volumes.iter().map(Vec::as_slice).collect();
        if let [SetFault::Refused { refusal, .. }] = set_faults(&lent)[..] {
            self.texts.note(refusal);
        }
    }

    /// Compares what is in a set.
    fn contents(&mut self, archive: &Archive, both: &Both<'_>) -> Result<(), Difference> {
        self.inodes += facts::compare(both, &archive.numbers)?;
        let rng = &mut Rng::new(archive.seed);
        places::compare(rng, both)?;
        files::compare(rng, both, &archive.numbers, &mut self.files)
    }
}

/// Compares one archive for so many seeds; what differs is told with its seed.
fn each<F>(one_for: u64, open: F)
where
    F: Fn(&mut Rng, &Archive, &mut Tally) -> Result<(), Difference> + Sync,
{
    let asked = Seeds::asked();
    let seeds = Seeds {
        count: asked.count.div_ceil(one_for),
        ..asked
    };
    let tallies = seeds.each(|seed, tally: &mut Tally| {
        let archive = archive(seed);
        let told = |difference| format!("{difference}\n{}", describe(&archive));
        open(&mut Rng::new(!seed), &archive, tally).map_err(told)
    });
    let tallies = tallies.unwrap_or_else(|told| panic!("{told}"));
    report(&tallies, asked.count >= USUAL);
    let mut texts = Texts::default();
    tallies.iter().for_each(|tally| texts.add(&tally.texts));
    println!("{texts}");
    // One set in ten is refused for a text, and of these one in four for a later one.
    let least = seeds.count / 100;
    assert!(asked.count < USUAL || !texts.are_few(least), "{texts}");
}

fn report(tallies: &[Tally], enough: bool) {
    let sum = |of: fn(&Tally) -> u64| -> u64 { tallies.iter().map(of).sum() };
    let counts = [
        ("inodes", sum(|tally| tally.inodes)),
        ("files", sum(|tally| tally.files.files)),
        ("read as a whole", sum(|tally| tally.files.whole)),
        ("bytes", sum(|tally| tally.files.bytes)),
        ("runs", sum(|tally| tally.files.runs)),
        ("without inode", sum(|tally| tally.files.absent)),
        ("not regular", sum(|tally| tally.files.not_regular)),
        ("not there", sum(|tally| tally.files.not_there)),
    ];
    println!("{counts:?}");
    for kind in Kind::ALL {
        let of = |tally: &Tally| tally.kinds.get(&kind).copied().unwrap_or(0);
        let count: u64 = tallies.iter().map(of).sum();
        println!("{kind:?}: {count}");
        assert!(count > 5 || !enough, "{kind:?}: {count}");
    }
    for (what, count) in counts {
        assert!(count > 50 || !enough, "{what}: {count}");
    }
}

/// The bytes that the caller has, with much cache and with little. Of those that are no set, what fits is one.
#[test]
fn archives_from_bytes_agree() {
    each(BYTES, |rng, archive, tally| {
        let cache = rng.pick(&[0, 1, 300, 70_000, 1 << 26]);
        if !archive.kind.is_sound() {
            if let Some(both) = opening::what_fits(archive)? {
                tally.contents(archive, &both)?;
            }
        }
        tally.compare(archive, opening::bytes(archive, cache))
    });
}

/// Files in a folder, checked one after the other or in threads.
#[test]
fn archives_from_files_agree() {
    each(FILES, |rng, archive, tally| {
        let folder = Folder::new().expect("a folder");
        let paths = folder.store(archive).expect("all volumes written");
        let jobs = NonZeroUsize::new(1 + rng.index(3)).expect("a job at least");
        opening::verdicts(archive, &paths, jobs)?;
        let opened = match rng.below(2) {
            0 => opening::in_threads(&paths, jobs),
            _ => hdrfs::Archive::open(paths),
        };
        tally.compare(archive, opened)
    });
}
