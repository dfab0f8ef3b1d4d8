//! Which text of a block is at fault, and where its first ill-formed sequence
//! starts.

mod common;

use common::texts::{links, well_formed, KINDS, TABLE};
use common::*;
use independent::*;

fn not_text<T>(text: u64, start: u64) -> Result<T, Refusal> {
    Err(Refusal::not_text(text, start))
}

/// A text with a sequence of every length, and so long that each text of a
/// block has another length.
fn sound(place: usize) -> Vec<u8> {
    let text = "aé€💧";
    [text.as_bytes(), &vec![b'z'; place]].concat()
}

/// Every byte of every text of every kind, with each of the other values.
#[test]
fn every_changed_byte() {
    let (mut refused, mut accepted) = (0, 0);
    for kind in &KINDS {
        let texts: Vec<Vec<u8>> = (0..kind.texts).map(sound).collect();
        assert_eq!(kind.ask(&texts), None);
        for place in 0..texts.len() {
            for at in 0..texts[place].len() {
                for by in 1..=255 {
                    let mut texts = texts.clone();
                    texts[place][at] ^= by;
                    match kind.ask(&texts) {
                        Some(fault) => {
                            assert_eq!(fault.text, place as u64);
                            // Within the sequence that the byte stood in.
                            assert!(fault.start.abs_diff(at as u64) <= 3);
                            refused += 1;
                        }
                        None => accepted += 1,
                    }
                }
            }
        }
    }
    println!("{refused} refused, {accepted} accepted");
    assert!(refused > 20_000 && accepted > 5_000);
}

/// Two bytes at fault, in one text or in two: the first decides.
#[test]
fn every_two_faults() {
    for kind in &KINDS {
        let texts: Vec<Vec<u8>> = (0..kind.texts).map(sound).collect();
        let places = |place: usize| (0..texts[place].len()).map(move |at| (place, at));
        let all: Vec<_> = (0..texts.len()).flat_map(places).collect();
        for (first, one) in all.iter().enumerate() {
            for two in &all[first..] {
                let mut texts = texts.clone();
                for &(place, at) in [one, two] {
                    texts[place][at] = 0xFF;
                }
                let fault = kind.ask(&texts).expect("two faults");
                assert_eq!(fault.text, one.0 as u64);
            }
        }
    }
}

/// Every cut of every text.
#[test]
fn every_cut() {
    for kind in &KINDS {
        let texts: Vec<Vec<u8>> = (0..kind.texts).map(sound).collect();
        for place in 0..texts.len() {
            // The sequences begin at 0, 1, 3, 6, and the last ends at 10.
            for (length, start) in [(1, 1), (2, 1), (4, 3), (5, 3), (6, 6), (7, 6), (9, 6)] {
                let mut texts = texts.clone();
                texts[place].truncate(length);
                let cut = Refusal::not_text(place as u64, start);
                assert_eq!(kind.ask(&texts), (length as u64 > start).then_some(cut));
            }
        }
    }
}

/// The two ways to find a start are one and the same on every text of three
/// bytes that begins with one of these, and on each beginning of it.
#[test]
fn starts_of_short_texts() {
    for first in [0x00, 0x7F, 0xC1, 0xC2, 0xDF, 0xE0, 0xED, 0xEF, 0xF0, 0xF4] {
        for rest in 0..=u16::MAX {
            let [second, third] = rest.to_le_bytes();
            let text = [first, second, third, 0x80];
            for length in 0..=4 {
                let text = &text[..length];
                let longest = (0..=length).rfind(|&end| str::from_utf8(&text[..end]).is_ok());
                assert_eq!(Some(well_formed(text)), longest, "{text:x?}");
                let told = utf8::require_text(3, text);
                let start = well_formed(text);
                let whole = start == length;
                assert_eq!(told.is_ok(), whole);
                assert!(whole || told == not_text(3, start as u64), "{text:x?}");
            }
        }
    }
}

const BAD_NAME: &[u8] = b"a\xffb";

/// The verdict on a block alone in volume 0, or behind the header of volume 1.
fn verdict(image: Vec<u8>) -> (Verdict, Result<(), Refusal>) {
    let is_table = image[0] == block::TABLE;
    let bytes = volume(u64::from(is_table), &[image]);
    let read = read(&bytes, mark(80, is_table, None)).map(|_| ());
    (check(&bytes), read)
}

fn refused_at_80(refusal: Refusal) -> (Verdict, Result<(), Refusal>) {
    let verdict = Verdict::Refused {
        refusal,
        offset: 80,
        blocks: 0,
    };
    (verdict, Err(refusal))
}

/// A path of 40,010 bytes that is at fault at 39,999.
fn long_path() -> Vec<u8> {
    let mut path = vec![b'p'; 40_010];
    path[39_999] = 0xFF;
    path
}

/// Blocks with a text at fault, and how they are refused.
fn at_fault() -> Vec<(Vec<u8>, u64, u64)> {
    let folders = |names: &[&[u8]]| links(&names.iter().map(|n| n.to_vec()).collect::<Vec<_>>());
    let twice = [table_link(1, 1, b"\xff"), table_link(2, 1, b"\xff")].concat();
    vec![
        (link(2, 1, BAD_NAME), 0, 1),
        (rename(1, b"gauge", b"x\xc0\x80"), 1, 1),
        (rename(1, b"ab\x80", b"\xff"), 0, 2),
        (table(3, &folders(&[b"ok", b"\xc3\xa9\x80", b"\xff"])), 1, 2),
        (table(2, &twice), 0, 0),
        (xattr(1, b"un\xe2\x28", b"\xff"), 0, 2),
        (removed_xattr(1, b"\xf0\x9f\x92"), 0, 0),
        (rename(1, &long_path(), b"new"), 0, 39_999),
        (rename(1, b"old", &long_path()), 1, 39_999),
        (inode(1, SYMBOLIC, 75, b"ab\xed\xa0\x80"), 0, 2),
        (inode(1, SYMBOLIC, 3, b"ab\xed\xa0\x80"), 0, 2),
        (inode(1, SYMBOLIC, TOP, b"\xe2\x28"), 0, 0),
    ]
}

#[test]
fn blocks_at_fault() {
    for (image, text, start) in at_fault() {
        let told = refused_at_80(Refusal::not_text(text, start));
        assert_eq!(verdict(image.clone()), told);
        assert_eq!(verdict(spoiled(image)), refused_at_80(Refusal::of(5)));
    }
}

/// What is no text, or is judged before texts are.
#[test]
fn blocks_without_a_text_at_fault() {
    let (told, read) = verdict(xattr(1, b"unit", b"\xff"));
    assert_eq!(told, accepted(0, 1, 109, Some(1)));
    assert_eq!(read, Ok(()));
    let (told, read) = verdict(data(1, b"\xff"));
    assert_eq!(told, accepted(0, 1, 102, Some(1)));
    assert_eq!(read, Ok(()));
    let folder = verdict(inode(1, FOLDER, 71, b"\xff"));
    assert_eq!(folder, refused_at_80(Refusal::of(11)));
    let regular = verdict(inode(1, REGULAR, 71, b"\xff"));
    assert_eq!(regular, refused_at_80(Refusal::of(11)));
}

#[test]
fn a_text_comes_before_the_time() {
    let blocks = |name| [data(9, b""), link(2, 1, name)];
    let told = Verdict::Refused {
        refusal: Refusal::not_text(0, 2),
        offset: 101,
        blocks: 1,
    };
    assert_eq!(check(&volume(0, &blocks(b"ab\xff"))), told);
    assert_eq!(check(&volume(0, &blocks(b"ab"))), refused(14, 101, 1));
}

#[test]
fn lookups_at_a_text_at_fault() {
    let bytes = volume(0, &[link(2, 1, BAD_NAME)]);
    let mut out = [7; 5];
    assert_eq!(lookup(&bytes, 80, b"", 0), not_text(0, 1));
    assert_eq!(runs(&bytes, 80, b"", 0, 9, &mut out), not_text(0, 1));
    for lengths in [vec![0; 7], vec![0; 8 * 4_097]] {
        assert_eq!(lookup(&bytes, 80, &lengths, 0), no(9));
        assert_eq!(runs(&bytes, 80, &lengths, 0, 9, &mut out), no(9));
    }
    assert_eq!(out, [7; 5]);
}

/// Appends with a buffer of that much room, which stays as it was.
fn refusal(
    room: usize,
    mark: Bookmark,
    append: impl Fn(&mut [u8], Bookmark) -> Result<Bookmark, Refusal>,
) -> Result<Bookmark, Refusal> {
    let mut buffer = vec![0xEE; room];
    let answer = append(&mut buffer, mark);
    assert!(answer.is_ok() || buffer.iter().all(|&byte| byte == 0xEE));
    answer
}

/// Appends a link with this name, or a target, by whatever mark.
fn name<'a>(name: &'a [u8]) -> impl Fn(&mut [u8], Bookmark) -> Result<Bookmark, Refusal> + 'a {
    move |buffer, mark| append_link(buffer, mark, 1, 5, 1, name)
}

#[test]
fn appends_at_fault() {
    let at = mark(80, false, None);
    let room = 90_000;
    assert_eq!(refusal(room, at, name(BAD_NAME)), not_text(0, 1));
    let unlink = |b: &mut [u8], mark| append_unlink(b, mark, 1, 5, 1, BAD_NAME);
    assert_eq!(refusal(room, at, unlink), not_text(0, 1));
    let paths = |old: &[u8], new: &[u8]| {
        let (old, new) = (old.to_vec(), new.to_vec());
        refusal(room, at, |b, mark| append_rename(b, mark, 1, &old, &new))
    };
    assert_eq!(paths(b"gauge", b"x\xc0\x80"), not_text(1, 1));
    assert_eq!(paths(b"ab\x80", b"\xff"), not_text(0, 2));
    assert_eq!(paths(&long_path(), b"new"), not_text(0, 39_999));
    assert_eq!(paths(b"old", &long_path()), not_text(1, 39_999));
    let attribute = |name: &'static [u8]| {
        refusal(room, at, |b, mark| {
            append_xattr(b, mark, 1, 5, name, b"\xff")
        })
    };
    let end = mark(109, false, Some(1)).numbered(1);
    assert_eq!(attribute(b"unit"), Ok(end));
    assert_eq!(attribute(b"un\xe2\x28"), not_text(0, 2));
    let removed = |b: &mut [u8], mark| append_removed_xattr(b, mark, 1, 5, b"\xf0\x9f\x92");
    assert_eq!(refusal(room, at, removed), not_text(0, 0));
    let inode = |mode, size, bytes: &'static [u8]| {
        let stat = stat(1, mode, size);
        refusal(room, at, |b, mark| append_inode(b, mark, &stat, bytes))
    };
    assert_eq!(inode(SYMBOLIC, 75, b"ab\xed\xa0\x80"), not_text(0, 2));
    assert_eq!(inode(SYMBOLIC, 0, b"ab\xed\xa0\x80"), not_text(0, 2));
    assert_eq!(inode(FOLDER, 71, b"\xff"), no(11));
}

#[test]
fn appended_tables_at_fault() {
    let at = mark(80, true, None);
    let with =
        |count, bytes: &[u8]| refusal(999, at, |b, mark| append_table(b, mark, count, bytes));
    let names = [b"ok".to_vec(), b"\xc3\xa9\x80".to_vec(), b"\xff".to_vec()];
    assert_eq!(with(3, &links(&names)), not_text(1, 2));
    let twice = [table_link(1, 1, b"\xff"), table_link(2, 1, b"\xff")].concat();
    assert_eq!(with(2, &twice), not_text(0, 0));
    for (count, bytes) in [(1, &twice[..]), (3, &twice), (2, &twice[1..]), (0, &twice)] {
        assert_eq!(with(count, bytes), no(11));
    }
    assert_eq!(with(4_097, &twice), no(9));
}

/// A bad name beside all else that can be wrong with an append.
#[test]
fn the_order_of_appends() {
    let at = mark(80, false, None);
    let due = mark(80, true, None);
    assert_eq!(refusal(999, due, name(BAD_NAME)), no(8));
    assert_eq!(refusal(999, mark(79, false, None), name(BAD_NAME)), no(8));
    assert_eq!(refusal(999, at.numbered(TOP), name(BAD_NAME)), no(9));
    let long = [vec![b'n'; 65_535], vec![0xFF]].concat();
    assert_eq!(refusal(99_999, at, name(&long)), no(9));
    assert_eq!(refusal(99_999, at, name(&long[1..])), not_text(0, 65_534));
    let late = mark(80, false, Some(2));
    assert_eq!(refusal(0, late, name(BAD_NAME)), not_text(0, 1));
    let far = mark(TOP, false, Some(2));
    assert_eq!(refusal(0, far, name(BAD_NAME)), not_text(0, 1));
    assert_eq!(refusal(0, late, name(b"ab")), no(14));
}

/// The last link of the longest table.
#[test]
fn the_last_of_many_links() {
    let mut names: Vec<Vec<u8>> = (0..4_096).map(|k| format!("{k}").into_bytes()).collect();
    names[4_095].extend(b"\xed\xa0\x80");
    let told = refused_at_80(Refusal::not_text(4_095, 4));
    assert_eq!(verdict((TABLE.image)(&names)), told);
    names[17].push(0xC0);
    let told = refused_at_80(Refusal::not_text(17, 2));
    assert_eq!(verdict((TABLE.image)(&names)), told);
}
