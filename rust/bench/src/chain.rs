//! Full volumes that follow each other: two in one call, and several of which each is checked and
//! digested once.

use std::hint::black_box;

use generator::bench::{archive_volume, neighbours};
use generator::pair::link;
use hdrfs::{sys, ChainEntry};
use independent::{check, pair, read_header, sha256, Verdict};

use crate::report::{self, Unit};
use crate::timing::{self, use_up};

/// How many volumes there are where there are several.
const VOLUMES: u64 = 6;

pub fn run(rounds: usize) {
    report::pair_heading("volumes of 16 MiB that follow", Unit::Milliseconds);
    let volumes = volumes();
    let [first, second] = [&volumes[0][..], &volumes[1]];
    assert_eq!(sys::pair(first, second).refusal, 0);
    assert_eq!(pair(first, second).refusal, 0);
    let times = timing::best(
        rounds,
        [
            &mut || use_up(sys::pair(black_box(first), black_box(second))),
            &mut || use_up(pair(black_box(first), black_box(second))),
        ],
    );
    report::pair("two, one call", Unit::Milliseconds, times);
    let times = timing::best(
        rounds,
        [
            &mut || each_pair(&volumes, |first, second| sys::pair(first, second).refusal),
            &mut || each_pair(&volumes, |first, second| pair(first, second).refusal),
        ],
    );
    let name = format!("{VOLUMES}, one call for each two");
    report::pair(&name, Unit::Milliseconds, times);
    let times = timing::best(
        rounds,
        [&mut || proved(&volumes), &mut || independent(&volumes)],
    );
    let name = format!("{VOLUMES}, each checked and digested once");
    report::pair(&name, Unit::Milliseconds, times);
    println!();
}

/// Volumes from number 0 on, each with the hash of the one before.
fn volumes() -> Vec<Vec<u8>> {
    let mut volumes = neighbours(digest).to_vec();
    for sequence in 2..VOLUMES {
        let mut next = archive_volume(sequence);
        link(&volumes[volumes.len() - 1], &mut next, digest);
        volumes.push(next);
    }
    volumes
}

fn digest(bytes: &[u8]) -> [u8; 32] {
    sha256(bytes).expect("no more than 16 MiB")
}

fn each_pair(volumes: &[Vec<u8>], refusal: impl Fn(&[u8], &[u8]) -> u64) {
    for two in black_box(volumes).windows(2) {
        assert_eq!(refusal(&two[0], &two[1]), 0);
    }
}

fn proved(volumes: &[Vec<u8>]) {
    let mut before: Option<ChainEntry> = None;
    for volume in black_box(volumes) {
        let entry = ChainEntry::of(volume).expect("a sound volume");
        if let Some(before) = before {
            assert_eq!(entry.follows(&before), Ok(()));
        }
        before = Some(entry);
    }
}

/// The same by the independent implementation, which has no call for it.
fn independent(volumes: &[Vec<u8>]) {
    let mut before = None;
    for volume in black_box(volumes) {
        assert!(matches!(check(volume), Verdict::Accepted { .. }));
        let header = read_header(volume).expect("a sound volume");
        if let Some((id, sequence, digest)) = before {
            let follows = (header.id, header.sequence, *header.previous);
            assert_eq!(follows, (id, sequence + 1, digest));
        }
        before = Some((header.id, header.sequence, digest(volume)));
    }
}
