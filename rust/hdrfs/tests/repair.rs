//! The longest accepted beginning: what is cut short and what is refused, and that a writer goes on
//! behind it as if nothing had been.

#[path = "support/anew.rs"]
mod anew;

use std::fs;
use std::path::PathBuf;

use anew::{append, sample};
use hdrfs::{sys, Block, Extent, Extents, Inode, Link, LinkList, Logical, Physical};
use hdrfs::{Refusal, Rejected, Volume, Writer, MAX_VOLUME_LEN};

type Append = fn(&mut Writer<'_>) -> Result<(), Refusal>;

/// The data block of every volume 0 here, at time 7.
const FIRST: Append = |writer| writer.append_data(7, b"1,5");

/// A table of one link, 32 bytes.
const TABLE: Append = |writer| writer.append_links(&LinkList::new().push(link("g"))?);

/// A further data block of 24 bytes.
const DATA: Append = |writer| writer.append_data(8, b"1,5");

/// A block of each kind but the table, and how long it is.
const KINDS: [(Append, usize); 8] = [
    (DATA, 24),
    (append_file, 132),
    (append_symbolic_link, 80),
    (|writer| writer.append_link(8, link("gauge")), 36),
    (|writer| writer.append_unlink(8, link("g")), 32),
    (|writer| writer.append_xattr(8, 7, "unit", b"\xFF"), 29),
    (|writer| writer.append_removed_xattr(8, 7, "unit"), 26),
    (|writer| writer.append_rename(8, "ab", "c"), 20),
];

fn link(name: &str) -> Link<'_> {
    Link {
        child: 8,
        parent: 1,
        name,
    }
}

fn append_file(writer: &mut Writer<'_>) -> Result<(), Refusal> {
    let extent = Extent::once(0, Physical(97), 3, Logical(0));
    let extents: Extents = [extent].into_iter().collect();
    let inode = Inode {
        size: 3,
        rest: extents.as_bytes(),
        ..Inode::regular(7)
    };
    writer.append_inode(8, &inode)
}

fn append_symbolic_link(writer: &mut Writer<'_>) -> Result<(), Refusal> {
    let inode = Inode {
        mode: 0o120_777,
        size: 75,
        rest: b"gauge",
        ..Inode::regular(7)
    };
    writer.append_inode(8, &inode)
}

/// A volume with these blocks.
fn written(sequence: u64, blocks: &[Append]) -> Vec<u8> {
    let mut buf = [0; 400];
    let previous = [u8::from(sequence > 0); 32];
    let mut writer = Writer::create(&mut buf, &[0; 16], sequence, &previous).unwrap();
    for append in blocks {
        append(&mut writer).unwrap();
    }
    writer.written().to_vec()
}

/// The volume of 104 bytes that is cut short behind its end, or damaged.
fn small_volume() -> Vec<u8> {
    written(0, &[FIRST])
}

/// The same with more bytes behind it.
fn and_then(more: &[u8]) -> Vec<u8> {
    [&small_volume(), more].concat()
}

/// Number, offset and number of blocks of a refusal by the check. It has to be about the block behind
/// those, or about the header.
fn rejected(volume: &[u8]) -> (u64, u64, u64) {
    let Rejected {
        refusal, blocks, ..
    } = Volume::check(volume).unwrap_err();
    let block = (refusal.offset > 0).then_some(blocks);
    assert_eq!(refusal.block, block);
    (refusal.number, refusal.offset, blocks)
}

/// A volume that is refused as the check refuses it, with nothing beside the number.
fn is_refused(volume: &[u8], fault: (u64, u64, u64)) {
    assert_eq!(rejected(volume), fault);
    let refusal = Volume::check(volume).unwrap_err().refusal;
    assert_eq!(Volume::repair(volume), Err(refusal));
    let expected = sys::Repaired {
        refusal: fault.0,
        ..Default::default()
    };
    assert_eq!(sys::repair(volume), expected);
}

/// A volume of which a beginning is left; the number of blocks in it is told.
fn is_cut(volume: &[u8], length: usize, blocks: u64) {
    assert_eq!(rejected(volume), (2, length as u64, blocks));
    has_length(volume, length, blocks);
}

/// A volume that is accepted.
fn is_whole(volume: &[u8], blocks: u64) {
    has_length(volume, volume.len(), blocks);
}

fn has_length(volume: &[u8], length: usize, blocks: u64) {
    assert_eq!(Volume::repair(volume), Ok(length));
    let expected = sys::Repaired {
        length: length as u64,
        ..Default::default()
    };
    assert_eq!(sys::repair(volume), expected);
    let beginning = Volume::check(&volume[..length]).unwrap();
    assert_eq!(beginning.block_count(), blocks);
}

#[test]
fn every_cut_of_every_kind_of_block() {
    for (append, len) in KINDS {
        let whole = written(0, &[FIRST, append]);
        assert_eq!(whole.len(), 104 + len);
        is_whole(&whole, 2);
        for end in 105..whole.len() {
            is_cut(&whole[..end], 104, 1);
            let found = Volume::whole_blocks_from(&whole[..end], 104);
            assert_eq!((found.count, found.may_be_more), (0, false));
        }
    }
}

/// Takes away what is cut short, and writes on where the check of what is left ends.
fn written_on(torn: &[u8], write: impl FnOnce(&mut Writer<'_>)) -> Vec<u8> {
    let left = &torn[..Volume::repair(torn).unwrap()];
    let mark = Volume::check(left).unwrap().end();
    let mut buf = [left, &[0xA5; 700]].concat();
    let mut writer = Writer::at(&mut buf, mark);
    write(&mut writer);
    writer.written().to_vec()
}

#[test]
fn a_block_that_is_appended_again_gives_the_same_volume() {
    for (append, _) in KINDS {
        let whole = written(0, &[FIRST, append]);
        for end in 105..whole.len() {
            let again = written_on(&whole[..end], |writer| append(writer).unwrap());
            assert_eq!(again, whole);
        }
    }
}

/// A volume with every kind of block, cut everywhere behind its table.
#[test]
fn a_volume_is_written_on_to_its_end() {
    let whole = sample("all_kinds.vol");
    let blocks: Vec<Block> = Volume::blocks(&whole).map(Result::unwrap).collect();
    for end in blocks[0].next.offset as usize..whole.len() {
        let again = written_on(&whole[..end], |writer| {
            for block in &blocks[writer.bookmark().number as usize..] {
                append(writer, block).unwrap();
            }
        });
        assert_eq!(again, whole);
    }
}

#[test]
fn a_cut_header_and_a_cut_table_are_refused() {
    is_refused(&[], (2, 0, 0));
    is_refused(&small_volume()[..79], (2, 0, 0));
    let volume = written(1, &[TABLE]);
    assert_eq!(volume.len(), 112);
    for end in 80..112 {
        is_refused(&volume[..end], (2, 80, 0));
    }
    is_whole(&volume, 1);
    let volume = written(1, &[TABLE, DATA]);
    is_cut(&volume[..117], 112, 1);
}

#[test]
fn a_header_alone() {
    let header = written(0, &[]);
    assert_eq!(header.len(), 80);
    is_whole(&header, 0);
    is_cut(&[&header[..], &[6]].concat(), 80, 0);
}

#[test]
fn other_faults_are_refused() {
    let mut damaged = small_volume();
    damaged[98] = b'.';
    is_refused(&damaged, (5, 80, 0));
    // It is the first fault that decides.
    is_refused(&[&damaged[..], &[6]].concat(), (5, 80, 0));
    is_refused(&and_then(&[0]), (7, 104, 1));
    is_refused(&and_then(&[0; 512]), (7, 104, 1));
    is_refused(&and_then(&[9]), (7, 104, 1));
    is_refused(&and_then(&[8]), (8, 104, 1));
}

/// The first bytes of a data block whose payload has a length.
fn fixed_fields_of_data(len: u64) -> Vec<u8> {
    [&[6][..], &8u64.to_le_bytes(), &len.to_le_bytes()].concat()
}

#[test]
fn a_length_beyond_the_end() {
    is_cut(&and_then(&fixed_fields_of_data(u64::MAX)), 104, 1);
    let mut inode = vec![1];
    inode.extend([0; 16]);
    inode.extend(0o100_644u16.to_le_bytes());
    inode.extend([0; 44]);
    inode.extend(58_369u64.to_le_bytes());
    is_refused(&and_then(&inode), (9, 104, 1));
}

/// What stands behind the damaged block is lost with it, and is counted.
#[test]
fn a_damaged_length_in_the_middle() {
    let mut volume = written(
        0,
        &[
            FIRST,
            |writer| writer.append_data(8, b"x"),
            |writer| writer.append_data(9, b"1,5"),
        ],
    );
    assert_eq!(volume.len(), 150);
    is_whole(&volume, 3);
    volume[113] = 200;
    is_cut(&volume, 104, 1);
    let found = Volume::whole_blocks_from(&volume, 104);
    assert_eq!((found.count, found.may_be_more), (1, false));
}

#[test]
fn a_bad_text_is_told_with_its_two_numbers() {
    let volume = sample("second_path_not_text.vol");
    let refusal = Volume::repair(&volume).unwrap_err();
    assert_eq!(refusal, Volume::check(&volume).unwrap_err().refusal);
    assert_eq!((refusal.number, refusal.text), (Refusal::NOT_TEXT, 1));
    let expected = sys::Repaired {
        refusal: refusal.number,
        text: refusal.text,
        start: refusal.start,
        length: 0,
    };
    assert_eq!(sys::repair(&volume), expected);
}

#[test]
fn a_volume_of_the_greatest_length_and_a_longer_one() {
    let payload = MAX_VOLUME_LEN - 104 - 17;
    let mut volume = and_then(&fixed_fields_of_data(payload as u64));
    volume.resize(MAX_VOLUME_LEN, 0);
    is_cut(&volume, 104, 1);
    volume.push(0);
    is_refused(&volume, (1, 0, 0));
}

/// What the check says is to be answered.
fn expected(volume: &[u8]) -> Result<usize, Refusal> {
    let refusal = match Volume::check(volume) {
        Ok(_) => return Ok(volume.len()),
        Err(rejected) => rejected.refusal,
    };
    let is_due = Volume::header(volume).is_ok_and(|heading| heading.next.table_due);
    let is_before_blocks = refusal.offset == 0 || is_due && refusal.offset == 80;
    match refusal.number == Refusal::ENDS_EARLY && !is_before_blocks {
        true => Ok(refusal.offset as usize),
        false => Err(refusal),
    }
}

/// Cuts every sample everywhere. Of what is left the length that is answered is accepted, and none
/// above it.
#[test]
fn no_longer_beginning_is_accepted() {
    let folder = PathBuf::from(env!("CARGO_MANIFEST_DIR")).join("../../crates/samples/data");
    let entries = fs::read_dir(folder).expect("the sample volumes are there");
    let (mut cut, mut refused) = (0, 0);
    for path in entries.map(|entry| entry.unwrap().path()) {
        let volume = fs::read(&path).unwrap();
        if path.extension().is_none_or(|end| end != "vol") || volume.len() > 1000 {
            continue;
        }
        let is_accepted = |end: &usize| Volume::check(&volume[..*end]).is_ok();
        let accepted: Vec<usize> = (0..=volume.len()).filter(is_accepted).collect();
        for end in 0..=volume.len() {
            let answer = Volume::repair(&volume[..end]);
            assert_eq!(answer, expected(&volume[..end]), "{}", path.display());
            let longest = accepted.iter().copied().rfind(|length| *length <= end);
            match answer {
                Ok(length) => assert_eq!(Some(length), longest, "{}", path.display()),
                Err(_) => refused += 1,
            }
            cut += u32::from(answer.is_ok_and(|length| length < end));
        }
    }
    assert!(cut > 1000 && refused > 1000, "{cut} {refused}");
}
