//! The walk against the check of the library.

use std::fs;
use std::path::PathBuf;

use super::scan;
use crate::runs::support::Numbers;
use crate::{sys, Volume};

/// What the library's own check answers, from a walk.
fn checked(volume: &[u8]) -> sys::Checked {
    match scan(volume, |_, _| ()) {
        Ok(scanned) => sys::Checked {
            sequence: scanned.heading.sequence,
            blocks: scanned.end.number,
            offset: scanned.end.offset,
            timed: u64::from(scanned.end.last_time.is_some()),
            time: scanned.end.last_time.unwrap_or(0),
            ..Default::default()
        },
        Err(rejected) => sys::Checked {
            refusal: rejected.refusal.number,
            text: rejected.refusal.text,
            start: rejected.refusal.start,
            blocks: rejected.blocks,
            offset: rejected.refusal.offset,
            ..Default::default()
        },
    }
}

/// Compares the walk with the check, by their numbers and by what is said of a refused volume.
fn compare(volume: &[u8]) {
    assert_eq!(checked(volume), sys::check(volume));
    let rejected = scan(volume, |_, _| ()).err();
    assert_eq!(rejected, Volume::check(volume).err());
}

/// The sample volumes of the repository.
fn samples() -> Vec<Vec<u8>> {
    let folder = PathBuf::from(env!("CARGO_MANIFEST_DIR")).join("../../crates/samples/data");
    let entries = fs::read_dir(folder).expect("the sample volumes are there");
    let paths = entries.map(|entry| entry.unwrap().path());
    let volumes = paths.filter(|path| path.extension().is_some_and(|end| end == "vol"));
    volumes.map(|path| fs::read(path).unwrap()).collect()
}

#[test]
fn a_walk_answers_what_the_check_answers() {
    let samples = samples();
    assert!(samples.len() > 40);
    let mut numbers = Numbers(0x5EED_1234_5EED_1234);
    for volume in &samples {
        compare(volume);
        if volume.is_empty() || volume.len() > 2000 {
            continue;
        }
        for _ in 0..200 {
            let mut damaged = volume.clone();
            let at = numbers.below(volume.len() as u64) as usize;
            damaged[at] ^= 1 << numbers.below(8);
            let cut = numbers.below(1 + volume.len() as u64 / 4) as usize;
            damaged.truncate(volume.len() - cut * numbers.below(2) as usize);
            compare(&damaged);
        }
    }
}

#[test]
fn every_block_is_visited_once() {
    let accepted = |volume: &Vec<u8>| sys::check(volume).refusal == 0;
    for volume in samples().into_iter().filter(accepted) {
        let mut end = 80;
        let mut count = 0;
        let scanned = scan(&volume, |offset, block| {
            assert_eq!((offset, block.number), (end, count));
            end = block.next;
            count += 1;
        });
        assert_eq!(scanned.map(|scanned| scanned.end.number), Ok(count));
        assert_eq!(end, volume.len() as u64);
    }
}
