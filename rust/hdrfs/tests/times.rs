//! A time may be the same as the last one before it, and not lower: in the check, in reading by any
//! bookmark, and in every append.

mod support;

use std::fs;
use std::path::PathBuf;

use hdrfs::{sys, Blocks, Bookmark, Inode, Link, Refusal, Volume, Writer};
use support::{data, header, inode, link, table, FOLDER, LINK};

const TOP: u64 = u64::MAX;

fn mark(offset: u64, table_due: bool, last_time: Option<u64>) -> Bookmark {
    Bookmark::at(offset)
        .with_table_due(table_due)
        .with_last_time(last_time)
}

/// The bookmark behind one block more, where no table is due.
fn after(before: Bookmark, offset: u64, last_time: Option<u64>) -> Bookmark {
    mark(offset, false, last_time).with_number(before.number + 1)
}

/// Sequence number, number of blocks and end of an accepted volume; else the refusal's number and
/// offset, and the number of blocks before it.
type Verdict = Result<(u64, u64, Bookmark), (u64, u64, u64)>;

fn check(volume: &[u8]) -> Verdict {
    match Volume::check(volume) {
        Ok(checked) => Ok((checked.sequence(), checked.block_count(), checked.end())),
        Err(rejected) => Err((
            rejected.refusal.number,
            rejected.refusal.offset,
            rejected.blocks,
        )),
    }
}

/// What is accepted ends at an offset, after a last time.
fn accepted(sequence: u64, blocks: u64, end: u64, last: u64) -> Verdict {
    let end = mark(end, false, Some(last)).with_number(blocks);
    Ok((sequence, blocks, end))
}

/// Volume 0 with two data blocks.
fn two(first: u64, second: u64) -> Vec<u8> {
    [header(0), data(first, b"1,5"), data(second, b"1,5")].concat()
}

#[test]
fn equal_times_are_accepted() {
    for time in [0, 7, TOP] {
        assert_eq!(check(&two(time, time)), accepted(0, 2, 128, time));
    }
    let blocks = [link(LINK, 5, 8, 1, "a"), inode(5, 8, FOLDER, 70, &[])];
    let linked = [header(0), blocks.concat()].concat();
    assert_eq!(linked.len(), 187);
    assert_eq!(check(&linked), accepted(0, 2, 187, 5));
}

#[test]
fn lower_times_are_refused() {
    for (first, second) in [(7, 6), (1, 0), (TOP, TOP - 1), (TOP, 0)] {
        assert_eq!(check(&two(first, second)), Err((14, 104, 1)));
    }
}

#[test]
fn the_samples_are_judged_so() {
    let folder = PathBuf::from(env!("CARGO_MANIFEST_DIR")).join("../../crates/samples/data");
    let sample = |name| fs::read(folder.join(name)).expect("the sample volume is there");
    assert_eq!(check(&sample("same_time.vol")), accepted(0, 2, 128, 7));
    assert_eq!(check(&sample("lower_time.vol")), Err((14, 104, 1)));
}

#[test]
fn a_table_leaves_the_last_time_as_it_was() {
    let volume = [header(1), table(&[]), data(0, b"")].concat();
    assert_eq!(volume.len(), 114);
    assert_eq!(check(&volume), accepted(1, 2, 114, 0));

    let volume = [header(1), table(&[]), data(7, b"")].concat();
    for (last, refusal) in [(6, None), (7, None), (8, Some(14))] {
        let from = mark(80, true, Some(last));
        let mut blocks = Blocks::at(&volume, from);
        let table = blocks.next().unwrap().unwrap();
        assert_eq!(table.next, after(from, 93, Some(last)));
        let behind = blocks.next().unwrap().err();
        assert_eq!(behind.map(|behind| behind.number), refusal);
    }
}

#[test]
fn appends_at_the_end_of_a_volume() {
    let mut buf = two(7, 7);
    buf[104..].fill(0xA5);
    let before = buf.clone();
    let end = mark(104, false, Some(7)).with_number(1);
    let mut writer = Writer::at(&mut buf, end);
    let lower = Refusal::new(14, 104).with_block(Some(1));
    assert_eq!(writer.append_data(6, b"1,5"), Err(lower));
    assert_eq!(writer.bookmark(), end);
    assert_eq!(buf, before);
    let mut writer = Writer::at(&mut buf, end);
    writer.append_data(7, b"1,5").unwrap();
    assert_eq!(writer.bookmark(), after(end, 128, Some(7)));
    assert_eq!(buf, two(7, 7));
}

type Append = fn(&mut Writer<'_>, u64) -> Result<(), Refusal>;

const NAMED: Link<'_> = Link {
    child: 8,
    parent: 1,
    name: "a",
};

/// Every append but that of a table, which has no time.
const APPENDS: [Append; 7] = [
    |writer, time| writer.append_inode(time, &Inode::regular(7)),
    |writer, time| writer.append_link(time, NAMED),
    |writer, time| writer.append_unlink(time, NAMED),
    |writer, time| writer.append_xattr(time, 7, "unit", b"m"),
    |writer, time| writer.append_removed_xattr(time, 7, "unit"),
    |writer, time| writer.append_data(time, b"1,5"),
    |writer, time| writer.append_rename(time, "old", "new"),
];

/// Appends with every kind of block at a bookmark. Answers each time the number of the refusal, 0
/// for none. The buffer keeps its bytes on refusal, and the bookmark stays.
fn append_each(from: Bookmark, time: u64) -> [u64; 7] {
    APPENDS.map(|append| {
        let mut buf = [0xA5; 300];
        let mut writer = Writer::at(&mut buf, from);
        let answer = append(&mut writer, time);
        let next = writer.bookmark();
        if answer.is_ok() {
            assert_eq!(next, after(from, next.offset, Some(time)));
            let block = Blocks::at(&buf, from).next().unwrap().unwrap();
            assert_eq!((block.time, block.next), (Some(time), next));
        } else {
            assert_eq!(next, from);
            assert_eq!(buf, [0xA5; 300]);
        }
        answer.map_or_else(|refusal| refusal.number, |()| 0)
    })
}

/// The same for reading: each block is written where there is no last time, and read where there is.
fn read_each(from: Bookmark, time: u64) -> [u64; 7] {
    APPENDS.map(|append| {
        let mut buf = [0xA5; 300];
        append(&mut Writer::at(&mut buf, Bookmark::at(from.offset)), time).unwrap();
        match Blocks::at(&buf, from).next().unwrap() {
            Ok(block) => {
                assert_eq!((block.time, block.next.last_time), (Some(time), Some(time)));
                0
            }
            Err(refusal) => refusal.number,
        }
    })
}

#[test]
fn every_kind_of_block_goes_by_the_rule() {
    // After no time and after time 0 the same times may follow.
    let following = [
        (None, 0),
        (Some(0), 0),
        (None, 1),
        (Some(0), 1),
        (Some(7), 7),
        (Some(7), 8),
        (Some(7), TOP),
        (Some(TOP), TOP),
        (None, TOP),
        (Some(0), TOP),
    ];
    let lower = [
        (Some(1), 0),
        (Some(7), 6),
        (Some(7), 0),
        (Some(TOP), TOP - 1),
        (Some(TOP), 0),
    ];
    for (pairs, number) in [(&following[..], 0), (&lower[..], 14)] {
        for &(last, time) in pairs {
            let from = mark(80, false, last);
            assert_eq!(append_each(from, time), [number; 7], "{last:?}, {time}");
            assert_eq!(read_each(from, time), [number; 7], "{last:?}, {time}");
        }
    }
}

/// Though the same times may follow, a bookmark tells no last time from the last time 0.
#[test]
fn time_0_is_a_time() {
    let mut buf = [0; 200];
    let mut writer = Writer::create(&mut buf, &[1; 16], 0, &[0; 32]).unwrap();
    assert_eq!(writer.bookmark().last_time, None);
    for _ in 0..2 {
        writer.append_data(0, b"").unwrap();
        assert_eq!(writer.bookmark().last_time, Some(0));
    }
    let volume = writer.written();
    assert_eq!(sys::check_timed(volume), 1);
    assert_eq!(sys::check_timed(&volume[..80]), 0);
    let first = sys::read(volume, 80, 0, 0, TOP, 0);
    assert_eq!((first.refusal, first.timed, first.last), (0, 1, 0));
    assert_eq!(sys::read(volume, 80, 0, 1, 0, 0), first);
}
