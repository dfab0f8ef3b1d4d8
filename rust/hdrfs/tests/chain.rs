//! The chain of volumes: pairs, and entries of many volumes.

#[path = "support/set.rs"]
mod set;
mod support;

use std::error::Error;
use std::fs;
use std::num::NonZeroUsize;
use std::ops::ControlFlow;
use std::path::PathBuf;

use hdrfs::{check_each, check_each_with_entry, sys};
use hdrfs::{ChainEntry, Checker, Mismatch, PairError, Refusal, Volume};
use set::Folder;
use support::{data, header, header_of, link, small_volume, table, LINK};

const ID: [u8; 16] = [0; 16];

/// A volume with nothing but an empty table, of a file system, with the hash of a previous volume.
fn volume(id: [u8; 16], sequence: u64, previous: [u8; 32]) -> Vec<u8> {
    [header_of(id, sequence, previous), table(&[])].concat()
}

/// The volume that follows another.
fn next(first: &[u8]) -> Vec<u8> {
    let heading = Volume::header(first).unwrap();
    volume(
        heading.id,
        heading.sequence + 1,
        Volume::digest(first).unwrap(),
    )
}

/// A volume with a damaged payload byte, and one that begins otherwise.
fn damaged() -> Vec<u8> {
    let mut volume = small_volume();
    volume[98] = b'.';
    volume
}

fn of_another_kind() -> Vec<u8> {
    let mut volume = next(&small_volume());
    volume[0] ^= 1;
    volume
}

/// The numbers of a pair that is refused with 23.
const BROKEN: sys::Paired = sys::Paired {
    refusal: 23,
    text: 0,
    start: 0,
    which: 0,
    offset: 0,
};

/// What the library and the entries say of two sound volumes, which has to be the same.
fn mismatch(first: &[u8], second: &[u8]) -> Option<Mismatch> {
    let answer = Volume::follows(first, second);
    let (first_entry, second_entry) = (ChainEntry::of(first), ChainEntry::of(second));
    let compared = second_entry.unwrap().follows(&first_entry.unwrap());
    assert_eq!(answer, compared.map_err(PairError::Mismatch));
    let paired = sys::pair(first, second);
    match compared {
        Ok(()) => assert_eq!(paired, sys::Paired::default()),
        Err(_) => assert_eq!(paired, BROKEN),
    }
    compared.err()
}

#[test]
fn a_volume_follows_the_one_whose_digest_it_has() {
    let first = small_volume();
    let second = next(&first);
    assert_eq!((first.len(), second.len()), (104, 93));
    assert_eq!(
        Volume::digest(&first).unwrap()[..4],
        [0x96, 0xdd, 0x04, 0xea]
    );
    assert_eq!(mismatch(&first, &second), None);
    assert_eq!(mismatch(&second, &next(&second)), None);
}

#[test]
fn every_byte_of_the_hash_and_of_the_id_counts() {
    let first = small_volume();
    let digest = Volume::digest(&first).unwrap();
    for at in 0..32 {
        let mut other = digest;
        other[at] ^= 1;
        let second = volume(ID, 1, other);
        assert_eq!(mismatch(&first, &second), Some(Mismatch::PreviousHash));
    }
    for at in 0..16 {
        let mut other = ID;
        other[at] ^= 0x80;
        let second = volume(other, 1, digest);
        assert_eq!(mismatch(&first, &second), Some(Mismatch::FileSystem));
    }
}

#[test]
fn the_number_has_to_be_the_next_one() {
    let first = small_volume();
    let digest = Volume::digest(&first).unwrap();
    for second in [2, 3, u64::MAX] {
        let expected = Mismatch::Sequence { first: 0, second };
        assert_eq!(
            mismatch(&first, &volume(ID, second, digest)),
            Some(expected)
        );
    }
    let twice = Mismatch::Sequence {
        first: 0,
        second: 0,
    };
    assert_eq!(mismatch(&first, &first), Some(twice));
    let exchanged = Mismatch::Sequence {
        first: 1,
        second: 0,
    };
    assert_eq!(mismatch(&next(&first), &first), Some(exchanged));
}

/// Behind the highest number there is none, and not 0.
#[test]
fn the_highest_number_is_the_last() {
    let last = volume(ID, u64::MAX, [7; 32]);
    for second in [
        small_volume(),
        volume(ID, 1, Volume::digest(&last).unwrap()),
    ] {
        let found = mismatch(&last, &second);
        assert!(
            matches!(found, Some(Mismatch::Sequence { .. })),
            "{found:?}"
        );
    }
    let one_below = volume(ID, u64::MAX - 1, [7; 32]);
    assert_eq!(mismatch(&one_below, &next(&one_below)), None);
    assert!(mismatch(&last, &last).is_some());
}

#[test]
fn of_several_reasons_the_first_is_told() {
    let first = small_volume();
    let second = volume([1; 16], 5, [7; 32]);
    assert_eq!(mismatch(&first, &second), Some(Mismatch::FileSystem));
    let second = volume(ID, 5, [7; 32]);
    let expected = Mismatch::Sequence {
        first: 0,
        second: 5,
    };
    assert_eq!(mismatch(&first, &second), Some(expected));
}

#[test]
fn a_volume_that_is_refused_by_itself_is_named() {
    let (first, second) = (small_volume(), next(&small_volume()));
    let paired = |refusal, which, offset| sys::Paired {
        refusal,
        which,
        offset,
        ..Default::default()
    };
    for (one, two, expected) in [
        (damaged(), of_another_kind(), paired(5, 1, 80)),
        (first.clone(), of_another_kind(), paired(3, 2, 0)),
        (damaged(), second.clone(), paired(5, 1, 80)),
        (of_another_kind(), damaged(), paired(3, 1, 0)),
        (second, damaged(), paired(5, 2, 80)),
        (vec![], vec![], paired(2, 1, 0)),
        (first, vec![], paired(2, 2, 0)),
    ] {
        assert_eq!(sys::pair(&one, &two), expected);
        let error = Volume::follows(&one, &two).unwrap_err();
        let own = |volume: &[u8]| Volume::check(volume).unwrap_err();
        match expected.which {
            1 => assert_eq!(error, PairError::First(own(&one))),
            _ => assert_eq!(error, PairError::Second(own(&two))),
        }
        assert_eq!(error.refusal().number, expected.refusal);
        assert_eq!(Refusal::from(error), error.refusal());
    }
}

#[test]
fn a_refusal_for_a_text_says_which_one_and_how_many_blocks_are_sound() {
    let blocks = [data(1, b"1,5"), link(LINK, 2, 8, 1, b"ab\xFF")];
    let bad = [header(0), blocks.concat()].concat();
    let expected = Volume::check(&bad).unwrap_err();
    assert_eq!((expected.refusal.number, expected.refusal.start), (10, 2));
    assert_eq!(expected.blocks, 1);
    assert_eq!(Volume::follows(&bad, &[]), Err(PairError::First(expected)));
    let sound = small_volume();
    assert_eq!(
        Volume::follows(&sound, &bad),
        Err(PairError::Second(expected))
    );
    assert_eq!(ChainEntry::of(&bad), Err(expected));
}

/// The sample volumes of the repository.
fn samples() -> Vec<Vec<u8>> {
    let folder = PathBuf::from(env!("CARGO_MANIFEST_DIR")).join("../../crates/samples/data");
    let entries = fs::read_dir(folder).expect("the sample volumes are there");
    let paths = entries.map(|entry| entry.unwrap().path());
    let volumes = paths.filter(|path| path.extension().is_some_and(|end| end == "vol"));
    let volumes = volumes.map(|path| fs::read(path).unwrap());
    volumes.filter(|volume| volume.len() < 10_000).collect()
}

/// Sound volumes of two file systems, whose numbers and hashes fit each other here and there.
fn neighbours() -> Vec<Vec<u8>> {
    let mut volumes = Vec::new();
    for id in [ID, [1; 16]] {
        let mut last = [header_of(id, 0, [0; 32]), data(7, b"1,5")].concat();
        let digest = Volume::digest(&last).unwrap();
        for _ in 0..3 {
            volumes.push(last.clone());
            last = next(&last);
        }
        volumes.push(volume(id, 1, [7; 32]));
        volumes.push(volume(id, 2, digest));
        volumes.push(volume(id, u64::MAX, digest));
    }
    volumes
}

#[test]
fn entries_say_what_the_library_says_of_every_pair() {
    let volumes = [samples(), neighbours()].concat();
    assert!(volumes.len() > 40);
    let entries: Vec<_> = volumes
        .iter()
        .map(|volume| ChainEntry::of(volume))
        .collect();
    let mut followed = 0;
    for (first, first_entry) in volumes.iter().zip(&entries) {
        for (second, second_entry) in volumes.iter().zip(&entries) {
            let expected = match (first_entry, second_entry) {
                (Err(rejected), _) => Err(PairError::First(*rejected)),
                (_, Err(rejected)) => Err(PairError::Second(*rejected)),
                (Ok(first), Ok(second)) => second.follows(first).map_err(PairError::Mismatch),
            };
            assert_eq!(Volume::follows(first, second), expected);
            followed += usize::from(expected.is_ok());
        }
    }
    assert!(followed >= 4, "{followed}");
}

#[test]
fn reasons_have_words() {
    let sequence = |first, second| Mismatch::Sequence { first, second };
    for (reason, words) in [
        (Mismatch::FileSystem, "other file system"),
        (Mismatch::PreviousHash, "previous hash differs"),
        (sequence(5, 5), "it is volume 5 too"),
        (sequence(5, 7), "volume 6 is missing"),
        (sequence(5, 9), "volumes 6 to 8 are missing"),
        (sequence(5, 3), "volume 3 comes before volume 5"),
    ] {
        assert_eq!(reason.to_string(), words);
        assert_eq!(Refusal::from(reason), Refusal::new(23, 0));
        let error = PairError::Mismatch(reason);
        let line = format!("refused 23: the second volume does not follow the first ({words})");
        assert_eq!(error.to_string(), line);
        assert_eq!(error.source().unwrap().to_string(), words);
    }
    assert_eq!(sequence(0, u64::MAX).missing(), Some(1..=u64::MAX - 1));
    assert_eq!(sequence(5, 3).missing(), None);
    let rejected = Volume::check(b"").unwrap_err();
    let line = PairError::Second(rejected).to_string();
    assert_eq!(line, format!("second volume: {rejected}"));
    assert!(PairError::First(rejected)
        .to_string()
        .starts_with("first volume: refused 2 at 0: "));
}

#[test]
fn a_file_is_read_once_for_its_check_and_its_digest() {
    let folder = Folder::new();
    let path = folder.put("0.vol", &small_volume());
    let mut checker = Checker::new();
    let (member, entry) = checker.path_with_entry(&path).unwrap();
    assert_eq!(Ok(entry), ChainEntry::of(&small_volume()));
    assert_eq!((member.path(), member.len()), (path.as_path(), 104));
    assert_eq!((entry.id, entry.sequence), (member.id(), member.sequence()));
    assert_eq!(entry.previous, member.previous());
    let path = folder.put("damaged.vol", &damaged());
    let with_entry = checker.path_with_entry(&path).unwrap_err();
    assert_eq!(
        with_entry.to_string(),
        checker.path(&path).unwrap_err().to_string()
    );
    let path = folder.path("none.vol");
    assert!(checker.path_with_entry(path).is_err());
}

#[test]
fn many_files_are_digested_at_once() {
    let folder = Folder::new();
    let mut volumes = vec![[header(0), data(7, &vec![1; 300_000])].concat()];
    for at in 0..20 {
        volumes.push(next(&volumes[at]));
    }
    volumes[7][0] ^= 1;
    volumes.reverse();
    let mut paths = folder.put_all(&volumes);
    paths.insert(3, folder.path("none.vol"));
    for jobs in [1, 2, 7].map(|jobs| NonZeroUsize::new(jobs).unwrap()) {
        let (mut plain, mut with_entry) = (Vec::new(), Vec::new());
        let ended = check_each::<()>(&paths, jobs, |_, checked| {
            plain.push(
                checked
                    .map(|member| member.sequence())
                    .map_err(|error| error.to_string()),
            );
            ControlFlow::Continue(())
        });
        assert!(ended.is_continue());
        let ended = check_each_with_entry::<()>(&paths, jobs, |place, checked| {
            assert_eq!(place, with_entry.len());
            if let Ok((member, entry)) = &checked {
                assert_eq!(member.path(), paths[place]);
                assert_eq!(
                    Ok(*entry),
                    ChainEntry::of(&fs::read(member.path()).unwrap())
                );
            }
            let sequence = checked.map(|(_, entry)| entry.sequence);
            with_entry.push(sequence.map_err(|error| error.to_string()));
            ControlFlow::Continue(())
        });
        assert!(ended.is_continue());
        assert_eq!(plain, with_entry);
        assert_eq!(plain.len(), 22);
    }
}
