//! The header writer and the appends.

mod common;

use common::*;
use independent::*;

const BAD: &[u8] = b"\xff";

/// One append with its fields.
#[derive(Clone)]
enum Append<'a> {
    Inode(Stat, &'a [u8]),
    Link(u64, &'a [u8]),
    Unlink(u64, &'a [u8]),
    Xattr(u64, &'a [u8], &'a [u8]),
    Removed(u64, &'a [u8]),
    Data(u64, &'a [u8]),
    Rename(u64, &'a [u8], &'a [u8]),
    Table(u64, &'a [u8]),
}

fn append(buffer: &mut [u8], mark: Bookmark, what: &Append) -> Result<Bookmark, Refusal> {
    match what {
        Append::Inode(stat, variable) => append_inode(buffer, mark, stat, variable),
        Append::Link(time, name) => append_link(buffer, mark, *time, 5, 1, name),
        Append::Unlink(time, name) => append_unlink(buffer, mark, *time, 5, 1, name),
        Append::Xattr(time, name, value) => append_xattr(buffer, mark, *time, 5, name, value),
        Append::Removed(time, name) => append_removed_xattr(buffer, mark, *time, 5, name),
        Append::Data(time, payload) => append_data(buffer, mark, *time, payload),
        Append::Rename(time, old, new) => append_rename(buffer, mark, *time, old, new),
        Append::Table(count, links) => append_table(buffer, mark, *count, links),
    }
}

/// The refusal with that much room, which is another where one block more
/// cannot be counted: only a wrong place comes before that.
fn refusal(room: usize, mark: Bookmark, what: &Append) -> u64 {
    let number = refusal_once(room, mark, what);
    let full = refusal_once(room, mark.numbered(TOP), what);
    assert_eq!(full, if number == 8 { 8 } else { 9 }, "{mark:?}");
    number
}

/// The refusal; the buffer must stay as it was.
fn refusal_once(room: usize, mark: Bookmark, what: &Append) -> u64 {
    let mut buffer = vec![0xEE; room];
    let answer = append(&mut buffer, mark, what);
    assert!(answer.is_ok() || buffer.iter().all(|&byte| byte == 0xEE));
    number(answer)
}

#[test]
fn header_writer() {
    let mut buffer = [0xEE; 90];
    let next = write_header(&mut buffer, &[7; 16], 1, &[9; 32]);
    assert_eq!(next, Ok(mark(80, true, None)));
    assert_eq!(buffer[..80], header(1));
    assert_eq!(buffer[80..], [0xEE; 10]);
    let next = write_header(&mut buffer[..80], &[7; 16], 0, &[0; 32]);
    assert_eq!(next, Ok(mark(80, false, None)));
    assert_eq!(buffer[..80], header(0));
}

#[test]
fn header_writer_order() {
    let refusal = |room: usize, id: &[u8], sequence, hash: &[u8]| {
        let mut buffer = vec![0xEE; room];
        let answer = write_header(&mut buffer, id, sequence, hash);
        assert!(buffer.iter().all(|&byte| byte == 0xEE));
        number(answer)
    };
    assert_eq!(refusal(0, &[7; 15], 0, &[9; 32]), 11);
    assert_eq!(refusal(0, &[7; 17], 0, &[9; 32]), 11);
    assert_eq!(refusal(0, &[7; 16], 0, &[9; 31]), 11);
    assert_eq!(refusal(0, &[7; 16], 0, &[0; 33]), 11);
    assert_eq!(refusal(0, &[7; 16], 0, &[9; 32]), 6);
    assert_eq!(refusal(79, &[7; 16], 0, &[0; 32]), 17);
    assert_eq!(refusal(79, &[7; 16], 3, &[9; 32]), 17);
}

#[test]
fn images() {
    let links = [table_link(1, 2, b"a"), table_link(3, 4, "ä".as_bytes())].concat();
    let list = extents(&[(0, 97, 3, 82, 3, 1, 1, 4)]);
    let pairs = [
        (
            Append::Inode(stat(3, REGULAR, 14), &list),
            inode(3, REGULAR, 14, &list),
        ),
        (
            Append::Inode(stat(3, SYMBOLIC, 72), b"to"),
            inode(3, SYMBOLIC, 72, b"to"),
        ),
        (
            Append::Inode(stat(3, FOLDER, 70), b""),
            inode(3, FOLDER, 70, b""),
        ),
        (Append::Link(3, b"name"), link(2, 3, b"name")),
        (Append::Unlink(3, b""), link(3, 3, b"")),
        (Append::Xattr(3, b"key", BAD), xattr(3, b"key", BAD)),
        (Append::Removed(3, b"key"), removed_xattr(3, b"key")),
        (Append::Data(3, BAD), data(3, BAD)),
        (Append::Rename(3, b"old", b""), rename(3, b"old", b"")),
        (Append::Table(2, &links), table(2, &links)),
        (Append::Table(0, b""), table(0, b"")),
    ];
    for (what, image) in pairs {
        let due = matches!(what, Append::Table(..));
        let end = 100 + image.len();
        let from = mark(100, due, Some(2));
        let mut buffer = vec![0xEE; end + 3];
        let next = append(&mut buffer, from, &what);
        let last = if due { 2 } else { 3 };
        assert_eq!(next, Ok(mark(end as u64, false, Some(last)).numbered(1)));
        assert!(buffer[..100].iter().all(|&byte| byte == 0xEE));
        assert_eq!(buffer[100..end], image);
        assert_eq!(buffer[end..], [0xEE; 3]);
        assert_eq!(refusal(end, from, &what), 0);
        assert_eq!(refusal(end - 1, from, &what), 17);
        assert_eq!(refusal(0, from, &what), 17);
    }
}

#[test]
fn place_comes_first() {
    let long = vec![0xFF; 65_536];
    let list = vec![0xFF; 58_369];
    let others = [
        Append::Inode(stat(0, REGULAR, 0), &list),
        Append::Link(0, &long),
        Append::Unlink(0, &long),
        Append::Xattr(0, &long, &long),
        Append::Removed(0, &long),
        Append::Data(0, &long),
        Append::Rename(0, &long, &long),
    ];
    for what in &others {
        assert_eq!(refusal(0, mark(79, false, Some(9)), what), 8);
        assert_eq!(refusal(0, mark(80, true, Some(9)), what), 8);
    }
    let what = Append::Table(TOP, &long);
    assert_eq!(refusal(0, mark(79, true, None), &what), 8);
    assert_eq!(refusal(0, mark(80, false, None), &what), 8);
}

#[test]
fn limits_come_before_text() {
    let at = mark(80, false, Some(9));
    let bad = |n: usize| vec![0xFF; n];
    let long = bad(65_536);
    let fits = bad(65_535);
    assert_eq!(refusal(0, at, &Append::Link(0, &long)), 9);
    assert_eq!(refusal(0, at, &Append::Link(0, &fits)), 10);
    assert_eq!(refusal(0, at, &Append::Unlink(0, &long)), 9);
    assert_eq!(refusal(0, at, &Append::Xattr(0, &bad(256), b"")), 9);
    assert_eq!(refusal(0, at, &Append::Xattr(0, &bad(255), b"")), 10);
    assert_eq!(refusal(0, at, &Append::Xattr(0, &bad(255), &long)), 9);
    assert_eq!(refusal(0, at, &Append::Xattr(0, b"", &fits)), 14);
    assert_eq!(refusal(0, at, &Append::Removed(0, &bad(256))), 9);
    assert_eq!(refusal(0, at, &Append::Removed(0, &bad(255))), 10);
    assert_eq!(refusal(0, at, &Append::Rename(0, &long, b"")), 9);
    assert_eq!(refusal(0, at, &Append::Rename(0, BAD, &long)), 9);
    assert_eq!(refusal(0, at, &Append::Rename(0, BAD, b"")), 10);
    assert_eq!(refusal(0, at, &Append::Rename(0, b"", BAD)), 10);
    assert_eq!(
        refusal(0, at, &Append::Inode(stat(0, REGULAR, 0), &bad(58_369))),
        9
    );
    assert_eq!(
        refusal(0, at, &Append::Inode(stat(0, REGULAR, 0), &bad(58_368))),
        11
    );
    assert_eq!(
        refusal(0, at, &Append::Inode(stat(0, SYMBOLIC, 0), &bad(58_369))),
        10
    );
    assert_eq!(
        refusal(0, at, &Append::Inode(stat(0, FOLDER, 0), &bad(58_369))),
        11
    );
}

#[test]
fn inode_order() {
    let at = mark(TOP, false, Some(9));
    let with = |stat, variable: &[u8]| refusal(0, at, &Append::Inode(stat, variable));
    assert_eq!(with(stat(8, SYMBOLIC, 0), BAD), 10);
    assert_eq!(with(stat(8, SYMBOLIC, 0), b"t"), 11);
    assert_eq!(with(stat(8, SYMBOLIC, 71), b"t"), 14);
    assert_eq!(with(stat(9, SYMBOLIC, 71), b"t"), 1);
    let a = (0, 0, 3, 67, 1, 0, 0, 0);
    let b = (0, 0, 3, 67, 1, 0, 0, 2);
    let bad = (0, 0, 3, 0, 1, 0, 0, 9);
    assert_eq!(with(stat(8, REGULAR, 0), &extents(&[a, b, bad])), 11);
    assert_eq!(with(stat(8, REGULAR, 0), &extents(&[a, b])), 12);
    assert_eq!(with(stat(8, REGULAR, 0), &extents(&[a])), 14);
    assert_eq!(with(stat(9, REGULAR, 0), &extents(&[a])), 1);
    assert_eq!(with(stat(8, REGULAR, 0), &extents(&[a])[1..]), 11);
}

#[test]
fn table_order() {
    let at = mark(TOP, true, Some(9));
    let with = |count, links: &[u8]| refusal(0, at, &Append::Table(count, links));
    let one = table_link(1, 2, b"a");
    let bad = table_link(1, 3, BAD);
    let twice = [one.clone(), one.clone()].concat();
    let all = [twice.clone(), bad].concat();
    assert_eq!(with(4_097, b""), 9);
    assert_eq!(with(TOP, &all), 9);
    assert_eq!(with(4, &all), 11);
    assert_eq!(with(2, &all), 11);
    assert_eq!(with(0, &all), 11);
    assert_eq!(with(1, b""), 11);
    assert_eq!(with(1, &one[..17]), 11);
    assert_eq!(with(1, &one[..18]), 11);
    assert_eq!(with(3, &all), 10);
    assert_eq!(with(2, &twice), 13);
    assert_eq!(with(1, &one), 1);
    assert_eq!(with(0, b""), 1);
}

#[test]
fn size_comes_before_room() {
    let limit = VOLUME_LIMIT as u64;
    let what = Append::Data(1, b"abc");
    for offset in [limit - 23, limit, TOP - 24, TOP - 23, TOP] {
        assert_eq!(refusal(0, mark(offset, false, None), &what), 1);
    }
    assert_eq!(refusal(0, mark(limit - 24, false, None), &what), 17);
    assert_eq!(
        refusal(VOLUME_LIMIT - 1, mark(limit - 24, false, None), &what),
        17
    );
    // A buffer beyond the limit may be lent.
    assert_eq!(
        refusal(VOLUME_LIMIT + 9, mark(limit - 24, false, None), &what),
        0
    );
    assert_eq!(
        refusal(VOLUME_LIMIT + 9, mark(limit - 23, false, None), &what),
        1
    );
    let big = vec![0; VOLUME_LIMIT];
    assert_eq!(refusal(0, mark(80, false, None), &Append::Data(1, &big)), 1);
}
