//! The check of whole volumes and the walk over their blocks, on the sample volumes and on damaged
//! copies of them.

mod support;

use std::fs;
use std::path::PathBuf;

use hdrfs::{sys, Blocks, Bookmark, Content, Refusal, Volume, MAX_VOLUME_LEN};
use support::{data, file, header, inode, small_volume, table, Extent, Numbers, FOLDER};

/// The sample volumes of the repository, by name.
fn samples() -> Vec<(String, Vec<u8>)> {
    let folder = PathBuf::from(env!("CARGO_MANIFEST_DIR")).join("../../crates/samples/data");
    let mut samples = Vec::new();
    for entry in fs::read_dir(&folder).expect("the sample volumes are there") {
        let path = entry.unwrap().path();
        if path.extension().is_some_and(|end| end == "vol") {
            let name = path.file_name().unwrap().to_string_lossy().into_owned();
            samples.push((name, fs::read(&path).unwrap()));
        }
    }
    assert!(samples.len() > 40);
    samples
}

/// Compares the check with the walk, and the check in one call with its parts. Answers what the
/// check says.
fn compare(name: &str, volume: &[u8]) -> Result<u64, Refusal> {
    let mut walk = Volume::blocks(volume);
    let mut offsets = vec![];
    let mut fault = None;
    for block in walk.by_ref() {
        match block {
            Ok(block) => {
                assert_eq!(block.number, offsets.len() as u64, "{name}");
                offsets.push(block.offset);
            }
            Err(refusal) => fault = Some(refusal),
        }
    }
    let raw = sys::check(volume);
    assert_eq!(raw.blocks, offsets.len() as u64, "{name}");
    assert_eq!(raw.refusal, sys::check_refusal(volume), "{name}");
    assert_eq!(raw.sequence, sys::check_sequence(volume), "{name}");
    assert_eq!(raw.blocks, sys::check_blocks(volume), "{name}");
    assert_eq!(raw.offset, sys::check_offset(volume), "{name}");
    assert_eq!(raw.timed, sys::check_timed(volume), "{name}");
    assert_eq!(raw.time, sys::check_time(volume), "{name}");
    let checked = Volume::check(volume);
    let rejected = checked.as_ref().err();
    assert_eq!(rejected.map(|rejected| rejected.refusal), fault, "{name}");
    if let Some(rejected) = rejected {
        assert_eq!(rejected.blocks, raw.blocks, "{name}");
    }
    if let Ok(checked) = &checked {
        assert_eq!(Some(checked.end()), walk.bookmark(), "{name}");
        assert_eq!(checked.end().offset, volume.len() as u64, "{name}");
    }
    Ok(checked?.block_count())
}

#[test]
fn check_and_walk_agree_on_the_samples() {
    let mut accepted = 0;
    for (name, volume) in samples() {
        accepted += u64::from(compare(&name, &volume).is_ok());
    }
    assert!(accepted >= 9);
}

#[test]
fn check_and_walk_agree_on_damaged_samples() {
    let mut numbers = Numbers(0x1234_5678_9ABC_DEF1);
    for (name, volume) in samples() {
        if volume.len() > 2000 {
            continue;
        }
        for _ in 0..60 {
            let mut damaged = volume.clone();
            damaged.truncate(
                volume.len()
                    - numbers
                        .below(2 + volume.len() as u64 / 8)
                        .min(volume.len() as u64) as usize,
            );
            if !damaged.is_empty() {
                let at = numbers.below(damaged.len() as u64) as usize;
                damaged[at] ^= 1 << numbers.below(8);
            }
            let _ = compare(&name, &damaged);
        }
    }
}

#[test]
fn refusals_say_where() {
    let refusal = |number, offset, block| Err(Refusal::new(number, offset).with_block(block));
    let volume = small_volume();
    assert_eq!(compare("whole", &volume), Ok(1));
    assert_eq!(compare("empty", &[]), refusal(2, 0, None));
    assert_eq!(compare("cut header", &volume[..79]), refusal(2, 0, None));
    assert_eq!(compare("header alone", &volume[..80]), Ok(0));
    assert_eq!(
        compare("cut block", &volume[..103]),
        refusal(2, 80, Some(0))
    );
    assert_eq!(
        compare("table missing", &header(1)),
        refusal(2, 80, Some(0))
    );
    let mut damaged = volume.clone();
    damaged[98] = b'.';
    assert_eq!(compare("damaged", &damaged), refusal(5, 80, Some(0)));
    let lower = [volume, data(6, b"2,5")].concat();
    assert_eq!(compare("lower time", &lower), refusal(14, 104, Some(1)));
}

#[test]
fn a_volume_may_have_16_mib_and_not_a_byte_more() {
    let payload = vec![b'x'; MAX_VOLUME_LEN - 80 - 21];
    let mut volume = [header(0), data(7, &payload)].concat();
    assert_eq!(volume.len(), MAX_VOLUME_LEN);
    assert_eq!(Volume::check(&volume).unwrap().block_count(), 1);
    volume.push(0);
    let long = Refusal::new(1, 0);
    assert_eq!(Volume::check(&volume).unwrap_err().refusal, long);
    assert_eq!(Volume::header(&volume), Err(long));
    assert_eq!(Volume::blocks(&volume).next(), Some(Err(long)));
}

#[test]
fn parts_are_parts_of_the_volume() {
    let volume = small_volume();
    let block = Volume::blocks(&volume).next().unwrap().unwrap();
    let Content::Data { payload } = block.content else {
        panic!("no data block")
    };
    assert_eq!(payload.as_ptr(), volume[97..].as_ptr());
    assert_eq!(payload, b"1,5");
}

#[test]
fn the_fields_of_an_inode_arrive() {
    let extents = [Extent::once(0, 97, 3, 0)];
    let volume = [header(0), file(u64::MAX, 9, 3, &extents)].concat();
    let block = Volume::blocks(&volume).next().unwrap().unwrap();
    assert_eq!((block.offset, block.id, block.len()), (80, 1, 75 + 57));
    assert_eq!(block.time, Some(u64::MAX));
    let Content::Inode(inode) = block.content else {
        panic!("no inode")
    };
    assert_eq!((inode.number, inode.mode), (9, 0o100_644));
    assert_eq!((inode.uid, inode.gid), (1, 2));
    assert_eq!((inode.atime, inode.mtime), (3, 4));
    assert_eq!((inode.ctime, inode.btime), (5, 6));
    assert_eq!((inode.size, inode.rest.len()), (3, 57));
    assert!(inode.is_regular());
}

#[test]
fn time_0_is_not_no_time() {
    let volume = [header(0), data(0, b"")].concat();
    assert_eq!(Volume::check(&volume).unwrap().end().last_time, Some(0));
    let table_only = [header(1), table(&[])].concat();
    assert_eq!(Volume::check(&table_only).unwrap().end().last_time, None);
}

#[test]
fn the_header_says_whether_a_table_is_due() {
    for sequence in [0, 1, u64::MAX] {
        let next = Bookmark::at(80).with_table_due(sequence > 0);
        let heading = Volume::header(&header(sequence)).unwrap();
        assert_eq!((heading.sequence, heading.next), (sequence, next));
    }
}

#[test]
fn a_full_table_is_walked() {
    let names: Vec<String> = (0..4096).map(|number| format!("gauge {number}")).collect();
    let links: Vec<(u64, u64, &[u8])> = (0u64..)
        .zip(&names)
        .map(|(child, name)| (child, child % 7, name.as_bytes()))
        .collect();
    let volume = [header(1), table(&links)].concat();
    let block = Volume::blocks(&volume).next().unwrap().unwrap();
    assert_eq!(block.time, None);
    let Content::LinkTable(found) = block.content else {
        panic!("no table")
    };
    assert_eq!(found.len(), 4096);
    let found: Vec<_> = found
        .iter()
        .map(|link| (link.child, link.parent, link.name.as_bytes()))
        .collect();
    assert_eq!(found, links);
}

#[test]
fn an_empty_table_has_no_links() {
    let volume = [header(2), table(&[])].concat();
    let block = Volume::blocks(&volume).next().unwrap().unwrap();
    let Content::LinkTable(table) = block.content else {
        panic!("no table")
    };
    assert_eq!((table.len(), table.iter().next()), (0, None));
}

#[test]
fn made_up_bookmarks_are_served() {
    let volume = [small_volume(), table(&[]), inode(9, 3, FOLDER, 70, &[])].concat();
    let mark = |offset, table_due, last_time| {
        Bookmark::at(offset)
            .with_table_due(table_due)
            .with_last_time(last_time)
    };
    let first = |mark| Blocks::at(&volume, mark).next();
    let number = |mark| {
        first(mark).map(|answer| {
            answer
                .map_err(|refusal| refusal.number)
                .map(|block| block.id)
        })
    };
    let end = volume.len() as u64;
    assert_eq!(number(mark(79, false, None)), Some(Err(8)));
    assert_eq!(number(mark(80, false, Some(6))), Some(Ok(6)));
    assert_eq!(number(mark(80, false, Some(7))), Some(Ok(6)));
    assert_eq!(number(mark(80, false, Some(8))), Some(Err(14)));
    assert_eq!(number(mark(104, false, None)), Some(Err(8)));
    assert_eq!(number(mark(104, true, None)), Some(Ok(8)));
    assert_eq!(number(mark(end, false, None)), None);
    assert_eq!(number(mark(end, true, None)), Some(Err(2)));
    assert_eq!(number(mark(u64::MAX, false, None)), Some(Err(2)));
    let table = first(mark(104, true, Some(8))).unwrap().unwrap();
    assert_eq!(table.next, mark(117, false, Some(8)).with_number(1));
}

#[test]
fn a_volume_is_shown_without_its_bytes() {
    let volume = small_volume();
    let checked = format!("{:?}", Volume::check(&volume));
    assert!(checked.contains("volume_len: 104"), "{checked}");
    assert!(!checked.contains("211"), "{checked}");
    let blocks = format!("{:?}", Volume::blocks(&volume));
    assert!(blocks.contains("volume_len: 104"), "{blocks}");
}
