//! A text that is not UTF-8 is refused with 10, and two numbers say which text of its block is the
//! first such one and where in it that begins: in the check, in reading by any bookmark, in lookups
//! and in every append. Beside every other number both are 0.

#[path = "support/kinds.rs"]
mod kinds;
mod support;

use hdrfs::{sys, ArchiveError, BadText, Blocks, Bookmark, Checker, File, Inode, Lengths, Logical};
use hdrfs::{Refusal, Volume, Writer};
use kinds::Kind;
use support::{data, header, inode, link, table, xattr, FOLDER, LINK, SYMBOLIC_LINK};

const TOP: u64 = u64::MAX;

/// The number of a refusal, which text is at fault and where in it.
type Three = (u64, u64, u64);

/// A link that is refused.
const NAME: &[u8] = b"a\xFFb";

/// Kinds of blocks and their texts, and which of these is at fault and where.
const ROWS: [(Kind, &[&[u8]], u64, u64); 15] = [
    (Kind::Link, &[NAME], 0, 1),
    (Kind::Link, &[b"\xE2\x28"], 0, 0),
    (Kind::Link, &[b"\xC3\xA9\x80"], 0, 2),
    (Kind::Link, &[b"a\xFF"], 0, 1),
    (Kind::Link, &[b"\xF0\x9F\x92"], 0, 0),
    (Kind::Link, &[b"\xED\xA0\x80"], 0, 0),
    (Kind::Unlink, &[NAME], 0, 1),
    (Kind::Xattr, &[b"un\xE2\x28"], 0, 2),
    (Kind::RemovedXattr, &[b"\xF0\x9F\x92"], 0, 0),
    (Kind::SymbolicLink, &[b"ab\xED\xA0\x80"], 0, 2),
    (Kind::Rename, &[b"gauge", b"x\xC0\x80"], 1, 1),
    (Kind::Rename, &[b"ab\x80", b"\xFF"], 0, 2),
    (Kind::Table, &[b"ok", b"\xC3\xA9\x80", b"\xFF"], 1, 2),
    // Before 13, since both links are the same.
    (Kind::Table, &[b"\xFF", b"\xFF"], 0, 0),
    (Kind::Table, &[b"ok", b"ok", b"\xFF"], 2, 0),
];

/// A volume with one block: volume 1 if that is a table.
fn volume(block: &[u8]) -> Vec<u8> {
    let sequence = u64::from(block[0] == 8);
    [header(sequence), block.to_vec()].concat()
}

/// What the calls on a whole volume refuse it with, the same for all of them.
fn check(volume: &[u8]) -> Refusal {
    let rejected = Volume::check(volume).unwrap_err();
    let refusal = rejected.refusal;
    let expected = sys::Checked {
        refusal: refusal.number,
        text: refusal.text,
        start: refusal.start,
        blocks: rejected.blocks,
        offset: refusal.offset,
        ..Default::default()
    };
    assert_eq!(sys::check(volume), expected);
    assert_eq!(sys::check_refusal(volume), refusal.number);
    assert_eq!(sys::check_text(volume), refusal.text);
    assert_eq!(sys::check_start(volume), refusal.start);
    assert_eq!(Volume::blocks(volume).last(), Some(Err(refusal)));
    let checked = Checker::new().bytes("v", volume.to_vec());
    let Err(ArchiveError::Refused {
        refusal: told,
        bad_text,
        ..
    }) = checked
    else {
        panic!("accepted");
    };
    assert_eq!((told, bad_text), (refusal, refusal.bad_text(volume)));
    refusal
}

/// What is read at a bookmark is refused so.
fn read(volume: &[u8], from: Bookmark) -> Refusal {
    Blocks::at(volume, from).next().unwrap().unwrap_err()
}

/// The three numbers with which a lookup of the block at an offset is refused, the same for positions
/// and runs. No run is stored.
fn look_up(volume: &[u8], offset: u64, lengths: &[u8]) -> Three {
    let place = sys::lookup(volume, offset, lengths, 0);
    let (refusal, text, start) = (place.refusal, place.text, place.start);
    let expected = sys::Place {
        refusal,
        text,
        start,
        ..Default::default()
    };
    assert_eq!(place, expected);
    assert_eq!(sys::lookup_refusal(volume, offset, lengths, 0), refusal);
    assert_eq!(sys::lookup_text(volume, offset, lengths, 0), text);
    assert_eq!(sys::lookup_start(volume, offset, lengths, 0), start);
    let mut out = [9; 5];
    let runs = sys::runs(volume, offset, lengths, 0, 1, &mut out);
    let expected = sys::RunCount {
        refusal,
        text,
        start,
        count: 0,
    };
    assert_eq!((runs, out), (expected, [9; 5]));
    (refusal, text, start)
}

/// The three numbers with which an append is refused, by the raw call. The buffer keeps its bytes.
fn refused(buf: &mut [u8], append: impl FnOnce(&mut [u8]) -> sys::Written) -> Three {
    buf.fill(0xA5);
    let written = append(buf);
    let (refusal, text, start) = (written.refusal, written.text, written.start);
    let expected = sys::Written {
        refusal,
        text,
        start,
        ..Default::default()
    };
    assert_eq!(written, expected);
    assert_ne!(refusal, 0);
    assert!(buf.iter().all(|byte| *byte == 0xA5));
    (refusal, text, start)
}

/// A block with these texts is refused wherever it is read or written, for one of them.
fn is_refused(kind: Kind, texts: &[&[u8]], text: u64, start: u64) {
    let volume = volume(&kind.block(texts));
    let expected = Refusal::new(10, 80).with_text(text, start);
    let first = expected.with_block(Some(0));
    assert_eq!(check(&volume), first, "{kind:?}");
    assert_eq!(read(&volume, kind.mark()), first, "{kind:?}");
    let numbers = (10, text, start);
    // A lookup reads where no table is due.
    let found = if kind == Kind::Table {
        (8, 0, 0)
    } else {
        numbers
    };
    assert_eq!(look_up(&volume, 80, &[]), found, "{kind:?}");
    let file = File::new(&volume, 80, &Lengths::new()).position(Logical(0));
    let (number, text, start) = found;
    let expected = Refusal::new(number, 80).with_text(text, start);
    assert_eq!(file, Err(expected), "{kind:?}");
    let mut buf = vec![0; volume.len() + 100];
    let append = |buf: &mut [u8]| kind.append(texts, buf, kind.mark());
    assert_eq!(refused(&mut buf, append), numbers, "{kind:?}");
}

#[test]
fn the_first_text_at_fault_is_told() {
    for (kind, texts, text, start) in ROWS {
        is_refused(kind, texts, text, start);
    }
}

/// The byte stands in the volume where the documents say: behind the block's offset, the beginning of
/// the text in the block, and the bytes of the text that are sound.
#[test]
fn the_byte_at_fault_can_be_found() {
    for (kind, texts, ..) in ROWS {
        let volume = volume(&kind.block(texts));
        let refusal = check(&volume);
        let text = refusal.text as usize;
        let begin = refusal.offset as usize + kind.text_at(texts, text);
        let (sound, bad) = volume[begin..][..texts[text].len()].split_at(refusal.start as usize);
        assert!(std::str::from_utf8(sound).is_ok(), "{kind:?}");
        let error = std::str::from_utf8(bad).unwrap_err();
        assert_eq!(error.valid_up_to(), 0, "{kind:?}");
    }
}

#[test]
fn a_byte_in_a_long_path() {
    let mut path = vec![b'p'; 40_010];
    path[39_999] = 0xFF;
    is_refused(Kind::Rename, &[&path, b"gauge"], 0, 39_999);
    is_refused(Kind::Rename, &[b"gauge", &path], 1, 39_999);
    is_refused(Kind::Rename, &[&path, &path[39_999..]], 0, 39_999);
}

#[test]
fn the_value_of_an_xattr_is_no_text() {
    let volume = volume(&xattr(1, 7, b"unit", b"\xFF"));
    let end = Volume::check(&volume).unwrap().end();
    assert_eq!((end.offset, end.number), (109, 1));
    let mut buf = volume.clone();
    buf[80..].fill(0xA5);
    let written = sys::append_xattr(&mut buf, 80, 0, 0, 0, 0, 1, 7, b"unit", b"\xFF");
    assert_eq!((written.refusal, written.text, written.start), (0, 0, 0));
    assert_eq!((written.next, buf), (109, volume));
}

/// Numbers of checks that come before that of texts, and one that comes after it.
#[test]
fn the_order_of_checks_in_reading() {
    let bad = volume(&link(LINK, 1, 8, 1, NAME));
    let mut damaged = bad.clone();
    *damaged.last_mut().unwrap() ^= 1;
    let target = b"ab\xED\xA0\x80";
    let wrong_size = volume(&inode(1, 7, SYMBOLIC_LINK, 74, target));
    let folder = volume(&inode(1, 7, FOLDER, 70, b"\xFF"));
    let mark = Bookmark::at(80);
    let last = mark.with_last_time(Some(TOP)).with_number(TOP);
    for (volume, from, number, text, start) in [
        (&damaged, mark, 5, 0, 0),
        (&bad, mark.with_table_due(true), 8, 0, 0),
        (&bad, Bookmark::at(79), 8, 0, 0),
        (&folder, mark, 11, 0, 0),
        (&wrong_size, mark, 10, 0, 2),
        (&bad, last, 10, 0, 1),
    ] {
        let expected = Refusal::new(number, from.offset).with_block(Some(from.number));
        assert_eq!(read(volume, from), expected.with_text(text, start));
    }
    for (volume, numbers) in [
        (&damaged, (5, 0, 0)),
        (&folder, (11, 0, 0)),
        (&wrong_size, (10, 0, 2)),
    ] {
        let (number, text, start) = numbers;
        let expected = Refusal::new(number, 80).with_block(Some(0));
        assert_eq!(check(volume), expected.with_text(text, start));
        assert_eq!(look_up(volume, 80, &[]), numbers);
    }
    assert_eq!(look_up(&bad, 80, &[0; 7]), (9, 0, 0));
}

/// The second block has a lower time too.
#[test]
fn a_text_in_the_second_block() {
    let blocks = [data(9, b""), link(LINK, 1, 8, 1, b"ab\xFF")];
    let volume = [header(0), blocks.concat()].concat();
    let expected = Refusal::new(10, 101).with_text(0, 2);
    let second = expected.with_block(Some(1));
    assert_eq!(check(&volume), second);
    assert_eq!(Volume::check(&volume).unwrap_err().blocks, 1);
    let from = Bookmark::at(101).with_last_time(Some(9)).with_number(1);
    assert_eq!(read(&volume, from), second);
    assert_eq!(look_up(&volume, 101, &[]), (10, 0, 2));
}

#[test]
fn the_order_of_checks_in_writing() {
    let mut buf = [0; 300];
    let mut ask = |name: &[u8], mark: Bookmark, room: usize| {
        let append = |buf: &mut [u8]| Kind::Link.append(&[name], &mut buf[..room], mark);
        refused(&mut buf, append)
    };
    let mark = Bookmark::at(80);
    let late = mark.with_last_time(Some(9));
    assert_eq!(ask(NAME, mark.with_table_due(true), 300), (8, 0, 0));
    assert_eq!(ask(NAME, mark.with_number(TOP), 300), (9, 0, 0));
    assert_eq!(ask(NAME, mark.with_number(TOP - 1), 300), (10, 0, 1));
    assert_eq!(ask(&[0xFF; 65_536], mark, 300), (9, 0, 0));
    assert_eq!(ask(&[0xFF; 65_535], mark, 300), (10, 0, 0));
    assert_eq!(ask(b"ab\xFF", late, 80), (10, 0, 2));
    assert_eq!(ask(b"ab", late, 80), (14, 0, 0));
    assert_eq!(ask(b"ab", mark, 80), (17, 0, 0));
    let far = Bookmark::at(16_777_216);
    assert_eq!(ask(b"ab\xFF", far, 300), (10, 0, 2));
    assert_eq!(ask(b"ab", far, 300), (1, 0, 0));
}

/// A table's bytes that are not the stated links, a symbolic link with another size, and a folder.
#[test]
fn the_order_of_checks_with_other_parts() {
    let mut buf = [0; 300];
    let block = table(&[(8, 1, b"ok"), (9, 1, b"\xFF")]);
    let links = &block[9..block.len() - 4];
    for (count, numbers) in [(1, (11, 0, 0)), (3, (11, 0, 0)), (2, (10, 1, 0))] {
        let append = |buf: &mut [u8]| sys::append_table(buf, 80, 1, 0, 0, 0, count, links);
        assert_eq!(refused(&mut buf, append), numbers, "{count}");
    }
    for (mode, size, rest, numbers) in [
        (SYMBOLIC_LINK, 74, &b"ab\xED\xA0\x80"[..], (10, 0, 2)),
        (SYMBOLIC_LINK, 74, b"abcde", (11, 0, 0)),
        (FOLDER, 70, b"\xFF", (11, 0, 0)),
    ] {
        let inode = Inode {
            mode,
            size,
            rest,
            ..Inode::regular(7)
        };
        buf.fill(0xA5);
        let (number, text, start) = numbers;
        let expected = Refusal::new(number, 80).with_block(Some(3));
        let mark = Bookmark::at(80).with_number(3);
        let mut writer = Writer::at(&mut buf, mark);
        let answer = writer.append_inode(1, &inode);
        assert_eq!(answer, Err(expected.with_text(text, start)));
        assert_eq!(writer.bookmark(), mark);
        assert_eq!(buf, [0xA5; 300]);
    }
}

#[test]
fn each_text_has_a_name() {
    for (kind, texts, name) in [
        (Kind::Link, &[&b"\xFF"[..]][..], "name"),
        (Kind::Unlink, &[b"\xFF"], "name"),
        (Kind::Xattr, &[b"\xFF"], "name"),
        (Kind::RemovedXattr, &[b"\xFF"], "name"),
        (Kind::SymbolicLink, &[b"\xFF"], "target"),
        (Kind::Rename, &[b"\xFF", b""], "old path"),
        (Kind::Rename, &[b"", b"\xFF"], "new path"),
        (Kind::Table, &[b"a", b"b", b"\xFF"], "name of link 2"),
    ] {
        let volume = volume(&kind.block(texts));
        let bad_text = check(&volume).bad_text(&volume);
        let told = bad_text.map(|text: BadText| text.to_string());
        assert_eq!(told.as_deref(), Some(name), "{kind:?}");
    }
    let damaged = &volume(&link(LINK, 1, 8, 1, NAME))[..100];
    assert_eq!(check(damaged).bad_text(damaged), None);
}

/// The first of some texts that is not UTF-8 and where that begins, by the standard library.
fn first_bad(texts: &[&[u8]]) -> Option<(u64, u64)> {
    (0..).zip(texts).find_map(|(index, text)| {
        let error = std::str::from_utf8(text).err()?;
        Some((index, error.valid_up_to() as u64))
    })
}

/// Reads and appends a block with these texts, and compares with what the standard library says of
/// them. Answers whether they are refused.
fn compare(kind: Kind, texts: &[&[u8]]) -> bool {
    let volume = volume(&kind.block(texts));
    let bad = first_bad(texts);
    let (refusal, text, start) = bad.map_or((0, 0, 0), |(text, start)| (10, text, start));
    let checked = sys::check(&volume);
    let told = (checked.refusal, checked.text, checked.start);
    assert_eq!(told, (refusal, text, start), "{kind:?} {texts:x?}");
    let mut buf = vec![0; volume.len()];
    let written = kind.append(texts, &mut buf, kind.mark());
    let told = (written.refusal, written.text, written.start);
    assert_eq!(told, (refusal, text, start), "{kind:?} {texts:x?}");
    let found = match kind {
        Kind::Table => (8, 0, 0),
        _ => bad.map_or((15, 0, 0), |(text, start)| (10, text, start)),
    };
    assert_eq!(look_up(&volume, 80, &[]), found, "{kind:?} {texts:x?}");
    let expected = if bad.is_none() {
        &volume[80..]
    } else {
        &vec![0; buf.len() - 80][..]
    };
    assert_eq!(&buf[80..], expected, "{kind:?} {texts:x?}");
    bad.is_some()
}

/// Every byte of every text becomes every other byte, each with the checksum that it then has.
#[test]
fn every_byte_of_every_text() {
    let (one, other) = ("pé€💧l".as_bytes(), "€/a".as_bytes());
    for (kind, texts) in [
        (Kind::Link, &[one][..]),
        (Kind::Unlink, &[one]),
        (Kind::Xattr, &[one]),
        (Kind::RemovedXattr, &[one]),
        (Kind::SymbolicLink, &[one]),
        (Kind::Rename, &[one, other]),
        (Kind::Table, &[other, one, b"log"]),
    ] {
        assert!(!compare(kind, texts));
        let (mut refused, mut accepted) = (0, 0);
        for (index, text) in texts.iter().enumerate() {
            for (place, difference) in
                (0..text.len()).flat_map(|at| (1..=255).map(move |by| (at, by)))
            {
                let mut changed = text.to_vec();
                changed[place] ^= difference;
                let mut texts = texts.to_vec();
                texts[index] = &changed;
                match compare(kind, &texts) {
                    true => refused += 1,
                    false => accepted += 1,
                }
            }
        }
        let bytes = texts.concat().len();
        assert_eq!(refused + accepted, 255 * bytes, "{kind:?}");
        assert!(refused > bytes && accepted > bytes, "{kind:?}");
    }
}

/// Bytes at which sequences begin, go on and change: all names of four of them.
#[test]
fn every_name_out_of_bytes_at_the_edges() {
    let bytes = [
        0x41, 0x80, 0x8F, 0x90, 0x9F, 0xA0, 0xBF, 0xC2, 0xE0, 0xED, 0xF0, 0xF4,
    ];
    let mut refused = 0;
    for number in 0..bytes.len().pow(4) {
        let digit = |place| bytes[number / bytes.len().pow(place) % bytes.len()];
        let name = [3, 2, 1, 0].map(digit);
        refused += usize::from(compare(Kind::Link, &[&name]));
    }
    assert!((1..bytes.len().pow(4)).contains(&refused));
}
