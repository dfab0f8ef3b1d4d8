//! Writing volumes: the sound samples anew, a volume that fills its buffer, and refusals.

#[path = "support/anew.rs"]
mod anew;
mod support;

use std::fs;
use std::path::PathBuf;

use anew::{append, sample};
use hdrfs::{Bookmark, Content, Link, Refusal, Volume, Writer, MAX_VOLUME_LEN};
use support::{small_volume, Numbers};

const ID: [u8; 16] = [1; 16];
const NO_HASH: [u8; 32] = [0; 32];

/// A writer over a buffer, begun with the header of a volume.
fn begin<'a>(buf: &'a mut [u8], volume: &[u8]) -> Writer<'a> {
    let id = volume[18..34].try_into().unwrap();
    let previous = volume[44..76].try_into().unwrap();
    let sequence = Volume::header(volume).unwrap().sequence;
    Writer::create(buf, id, sequence, previous).unwrap()
}

/// Writes a sound volume anew, block by block, into a buffer with `more` bytes behind it.
fn rewrite(volume: &[u8], more: usize) {
    let mut buf = vec![0xA5; volume.len() + more];
    let mut writer = begin(&mut buf, volume);
    for block in Volume::blocks(volume) {
        let block = block.unwrap();
        let mark = writer.bookmark();
        assert_eq!((mark.offset, mark.number), (block.offset, block.number));
        append(&mut writer, &block).unwrap();
        assert_eq!(writer.bookmark(), block.next);
    }
    assert_eq!(writer.written(), volume);
    assert!(buf[volume.len()..].iter().all(|byte| *byte == 0xA5));
}

#[test]
fn a_volume_with_every_kind_of_block_is_written_anew() {
    let volume = sample("all_kinds.vol");
    rewrite(&volume, 0);
    rewrite(&volume, 100);
}

#[test]
fn every_sound_sample_is_written_anew() {
    let folder = PathBuf::from(env!("CARGO_MANIFEST_DIR")).join("../../crates/samples/data");
    let mut sound = 0;
    for entry in fs::read_dir(folder).unwrap() {
        let path = entry.unwrap().path();
        let volume = fs::read(&path).unwrap();
        if path.extension().is_some_and(|end| end == "vol") && Volume::check(&volume).is_ok() {
            rewrite(&volume, 3);
            sound += 1;
        }
    }
    assert!(sound >= 9);
}

/// Every buffer that is too short refuses the block that runs past it, and keeps its bytes.
#[test]
fn too_little_room_is_refused() {
    let volume = sample("all_kinds.vol");
    for room in 80..volume.len() {
        let mut buf = vec![0xA5; room];
        let mut writer = begin(&mut buf, &volume);
        let mut blocks = Volume::blocks(&volume).map(Result::unwrap);
        let refused = blocks
            .find(|block| block.next.offset > room as u64)
            .unwrap();
        for block in Volume::blocks(&volume).map(Result::unwrap) {
            if block.offset < refused.offset {
                append(&mut writer, &block).unwrap();
            }
        }
        let mark = writer.bookmark();
        let refusal = append(&mut writer, &refused).unwrap_err();
        let no_room = Refusal::new(17, refused.offset).with_block(Some(refused.number));
        assert_eq!(refusal, no_room);
        assert_eq!(writer.bookmark(), mark);
        let end = refused.offset as usize;
        assert_eq!(buf[..end], volume[..end]);
        assert!(buf[end..].iter().all(|byte| *byte == 0xA5));
    }
}

#[test]
fn a_header_is_refused() {
    let mut buf = [0xA5; 80];
    let refusal = |number| Some(Refusal::new(number, 0));
    let hash = [1; 32];
    assert_eq!(Writer::create(&mut buf, &ID, 0, &hash).err(), refusal(6));
    assert_eq!(
        Writer::create(&mut buf[..79], &ID, 0, &NO_HASH).err(),
        refusal(17)
    );
    assert_eq!(Writer::create(&mut [], &ID, 1, &hash).err(), refusal(17));
    assert_eq!(buf, [0xA5; 80]);
}

#[test]
fn blocks_are_refused_out_of_place() {
    let mut buf = [0; 300];
    let mut writer = Writer::create(&mut buf, &ID, 1, &[9; 32]).unwrap();
    let link = Link {
        child: 8,
        parent: 1,
        name: "gauge",
    };
    let out_of_place = |offset, block| Some(Refusal::new(8, offset).with_block(Some(block)));
    assert_eq!(writer.append_link(1, link).err(), out_of_place(80, 0));
    writer.append_table(0, b"").unwrap();
    assert_eq!(writer.append_table(0, b"").err(), out_of_place(93, 1));
    writer.append_link(1, link).unwrap();
    assert_eq!(Volume::check(writer.written()).unwrap().block_count(), 2);
}

#[test]
fn writing_goes_on_at_the_end_of_a_volume() {
    let mut buf = small_volume();
    let end = Volume::check(&buf).unwrap().end();
    buf.resize(130, 0);
    let mut writer = Writer::at(&mut buf, end);
    writer.append_rename(8, "a", "b").unwrap();
    let volume = writer.written();
    assert_eq!(volume.len(), 123);
    let last = Volume::blocks(volume).last().unwrap().unwrap();
    assert_eq!(last.content, Content::Rename { old: "a", new: "b" });
}

/// A bookmark that is made up writes nowhere but at its offset, and ends nothing badly.
#[test]
fn made_up_bookmarks_are_served() {
    let mut numbers = Numbers(0x0DDB_A115_EED5_EED1);
    for _ in 0..2000 {
        let mut buf = [0xA5; 150];
        let edges = [
            0,
            79,
            80,
            128,
            129,
            130,
            150,
            u64::MAX,
            u64::MAX - 20,
            1 << 63,
        ];
        let offset = match numbers.below(2) {
            0 => edges[numbers.below(edges.len() as u64) as usize],
            _ => numbers.below(200),
        };
        let mark = Bookmark::at(offset)
            .with_table_due(numbers.below(2) == 1)
            .with_last_time((numbers.below(2) == 1).then_some(numbers.below(3)));
        let mut writer = Writer::at(&mut buf, mark);
        let answer = writer.append_data(1, b"");
        let fits = (80..=129).contains(&offset);
        let sound = fits && !mark.table_due && mark.last_time <= Some(1);
        assert_eq!(answer.is_ok(), sound, "{mark:?}");
        let changed = if sound {
            offset as usize..offset as usize + 21
        } else {
            0..0
        };
        assert!(writer.written().len() <= 150);
        for (at, byte) in buf.iter().enumerate() {
            assert!(*byte == 0xA5 || changed.contains(&at), "{mark:?}");
        }
    }
}

#[test]
fn a_volume_is_filled_to_the_limit() {
    let mut buf = vec![0; MAX_VOLUME_LEN + 100];
    let mut writer = Writer::create(&mut buf, &ID, 0, &NO_HASH).unwrap();
    let payload = vec![7; MAX_VOLUME_LEN - 80 - 21 + 1];
    assert_eq!(writer.append_data(1, &payload).unwrap_err().number, 1);
    writer.append_data(1, &payload[1..]).unwrap();
    assert_eq!(writer.append_data(2, b"").unwrap_err().number, 1);
    let checked = Volume::check(writer.written()).unwrap();
    assert_eq!(checked.end(), writer.bookmark());
}
