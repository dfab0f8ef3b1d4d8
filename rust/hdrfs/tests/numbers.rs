//! Blocks are counted: a bookmark says how many come before it, a block which one it is, and a
//! refusal which one is at fault.

#[path = "support/anew.rs"]
mod anew;
#[path = "support/set.rs"]
mod set;

use anew::{append, sample};
use hdrfs::{sys, Archive, ArchiveError, Blocks, Bookmark, Checker, Content, File, FileType};
use hdrfs::{Lengths, Logical, Refusal, Volume, Writer};
use set::volume;

/// The highest number: one block more cannot be counted.
const TOP: u64 = u64::MAX;

fn mark(offset: u64, table_due: bool, last_time: Option<u64>, number: u64) -> Bookmark {
    Bookmark::at(offset)
        .with_table_due(table_due)
        .with_last_time(last_time)
        .with_number(number)
}

/// The refusal's number. It has to be about the block before which a bookmark stands.
fn number_at(from: Bookmark, refusal: Refusal) -> u64 {
    let expected = Refusal::new(refusal.number, from.offset).with_block(Some(from.number));
    assert_eq!(refusal, expected);
    refusal.number
}

/// What is read at a bookmark: the block's number and the bookmark after it, the number of a
/// refusal, or nothing at the end.
fn read(volume: &[u8], from: Bookmark) -> Option<Result<(u64, Bookmark), u64>> {
    let item = Blocks::at(volume, from).next()?;
    let block = item.map(|block| (block.number, block.next));
    Some(block.map_err(|refusal| number_at(from, refusal)))
}

#[test]
fn reading_at_the_highest_number() {
    let volume = sample("v.vol");
    let mut damaged = volume.clone();
    damaged[103] ^= 1;
    let end = mark(104, false, Some(7), TOP);
    let last = Ok((TOP - 1, end));
    for (volume, from, answer) in [
        (&volume, mark(80, false, None, TOP), Some(Err(9))),
        (&volume, end, None),
        (&volume, mark(80, false, None, TOP - 1), Some(last)),
        (&volume, mark(80, false, Some(8), TOP), Some(Err(14))),
        (&damaged, mark(80, false, Some(8), TOP), Some(Err(5))),
        (&volume, mark(80, true, None, TOP), Some(Err(8))),
        (&volume, mark(79, false, None, TOP), Some(Err(8))),
        (&volume, mark(105, false, None, TOP), Some(Err(2))),
    ] {
        assert_eq!(read(volume, from), answer, "{from:?}");
    }
}

type Append = fn(&mut Writer<'_>) -> Result<(), Refusal>;

/// A block that follows the one of V, and a table of one link whose bytes are not a link's.
const DATA: Append = |writer| writer.append_data(7, b"1,5");
const WRONG_TABLE: Append = |writer| writer.append_table(1, b"?");

/// Appends behind V, where there is room. Answers the bookmark after the block, or the number of
/// the refusal: then the bookmark and every byte stay as they were.
fn append_behind(from: Bookmark, append: Append) -> Result<Bookmark, u64> {
    let mut buf = sample("v.vol");
    buf.resize(200, 0xA5);
    let before = buf.clone();
    let mut writer = Writer::at(&mut buf, from);
    let answer = append(&mut writer);
    let after = writer.bookmark();
    answer.map(|()| after).map_err(|refusal| {
        assert_eq!(after, from);
        assert_eq!(buf, before);
        number_at(from, refusal)
    })
}

#[test]
fn appending_at_the_highest_number() {
    let last = mark(128, false, Some(7), TOP);
    for (append, from, answer) in [
        (DATA, mark(104, false, Some(7), TOP), Err(9)),
        (DATA, mark(104, true, Some(7), TOP), Err(8)),
        (WRONG_TABLE, mark(104, true, Some(7), TOP), Err(9)),
        (WRONG_TABLE, mark(104, true, Some(7), TOP - 1), Err(11)),
        (DATA, mark(104, false, Some(7), TOP - 1), Ok(last)),
        (DATA, last, Err(9)),
    ] {
        assert_eq!(append_behind(from, append), answer, "{from:?}");
    }
}

/// The writer takes no name but text, so that this one is asked for by the call itself.
#[test]
fn the_number_is_looked_at_before_the_name() {
    for (number, refusal) in [(TOP, 9), (TOP - 1, 10)] {
        let mut buf = [0xA5; 200];
        let written = sys::append_link(&mut buf, 104, 0, 1, 7, number, 7, 8, 1, b"\xff");
        let expected = sys::Written {
            refusal,
            ..Default::default()
        };
        assert_eq!((written, buf), (expected, [0xA5; 200]));
    }
}

#[test]
fn behind_the_last_block_that_can_be_counted_is_the_end() {
    let mut buf = sample("v.vol");
    buf.resize(200, 0xA5);
    let mut writer = Writer::at(&mut buf, mark(104, false, Some(7), TOP - 1));
    DATA(&mut writer).unwrap();
    assert_eq!(writer.bookmark().number, TOP);
    assert_eq!(read(writer.written(), writer.bookmark()), None);
}

#[test]
fn the_check_counts_to_the_end() {
    for (name, blocks) in [
        ("v.vol", 1),
        ("all_kinds.vol", 10),
        ("sound_header_0.vol", 0),
    ] {
        let bytes = sample(name);
        let checked = Volume::check(&bytes).unwrap();
        assert_eq!(checked.block_count(), blocks, "{name}");
        assert_eq!(checked.end().number, blocks, "{name}");
        let member = Checker::new().bytes(name, bytes).unwrap();
        assert_eq!(member.block_count(), blocks, "{name}");
        assert_eq!(member.end().number, blocks, "{name}");
    }
}

#[test]
fn a_walk_counts_every_kind_of_block() {
    let bytes = sample("all_kinds.vol");
    let mut blocks = Volume::blocks(&bytes);
    for number in 0..10 {
        assert_eq!(blocks.bookmark().unwrap().number, number);
        let block = blocks.next().unwrap().unwrap();
        assert_eq!((block.number, block.next.number), (number, number + 1));
        let is_table = matches!(block.content, Content::LinkTable(_));
        assert_eq!(is_table, number == 0);
    }
    assert!(blocks.next().is_none());
    assert_eq!(blocks.bookmark().unwrap().number, 10);
}

/// Each kind of block is counted on from the number that the writer begins with, and at the highest
/// it is refused.
#[test]
fn every_append_counts() {
    let bytes = sample("all_kinds.vol");
    let mut from = Volume::header(&bytes).unwrap().next;
    for block in Volume::blocks(&bytes).map(Result::unwrap) {
        for number in [0, 16, TOP - 1] {
            let mut buf = vec![0xA5; bytes.len()];
            let mut writer = Writer::at(&mut buf, from.with_number(number));
            append(&mut writer, &block).unwrap();
            assert_eq!(writer.bookmark(), block.next.with_number(number + 1));
        }
        let mut buf = vec![0xA5; bytes.len()];
        let mut writer = Writer::at(&mut buf, from.with_number(TOP));
        let refusal = append(&mut writer, &block).unwrap_err();
        assert_eq!(number_at(writer.bookmark(), refusal), 9);
        assert_eq!(writer.bookmark(), from.with_number(TOP));
        assert!(buf.iter().all(|byte| *byte == 0xA5));
        from = block.next;
    }
}

#[test]
fn numbers_rise_as_a_volume_is_written() {
    let mut buf = [0; 300];
    let mut writer = Writer::create(&mut buf, &[1; 16], 1, &[2; 32]).unwrap();
    assert_eq!(writer.bookmark().number, 0);
    writer.append_table(0, b"").unwrap();
    for number in 1..5 {
        assert_eq!(writer.bookmark().number, number);
        let misplaced = writer.append_table(0, b"").unwrap_err();
        assert_eq!(number_at(writer.bookmark(), misplaced), 8);
        writer.append_data(7, b"1,5").unwrap();
    }
    let checked = Volume::check(writer.written()).unwrap();
    assert_eq!(checked.end(), writer.bookmark());
    assert_eq!(checked.block_count(), 5);
}

/// A file out of a walk or of an archive says which block is at fault; an offset does not tell.
#[test]
fn refusals_of_files_say_which_block() {
    let bytes = volume(1, |draft| {
        draft.data(b"1,5");
        draft.file(7, 0, &[]);
        draft.link(7, "gauge")
    });
    let lengths: Lengths = [104; 4097].into_iter().collect();
    for block in Volume::blocks(&bytes).map(Result::unwrap) {
        let walked = File::of_block(&bytes, &block, &lengths);
        let bare = File::new(&bytes, block.offset, &lengths);
        for (file, number) in [(walked, Some(block.number)), (bare, None)] {
            let expected = Refusal::new(9, block.offset).with_block(number);
            assert_eq!(file.position(Logical(0)), Err(expected));
            assert_eq!(file.all_runs().next(), Some(Err(expected)));
        }
    }
    let mut archive = Archive::new();
    let kinds = sample("all_kinds.vol");
    archive
        .insert(Checker::new().bytes("1", kinds).unwrap())
        .unwrap();
    let folder = archive.inode(7).unwrap();
    assert_eq!(folder.file_type(), FileType::Folder);
    assert_eq!((folder.offset, folder.block), (406, 3));
    let Err(ArchiveError::Refused { refusal, .. }) = archive.file(7) else {
        panic!("a folder is looked up");
    };
    assert_eq!(refusal, Refusal::new(15, 406).with_block(Some(3)));
}
