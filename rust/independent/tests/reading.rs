//! Reading of headers and blocks, and the order of their refusals.

mod common;

use common::*;
use independent::{
    check, check_with, crc, read_header, Body, Bookmark, Reading, Refusal, Verdict, VOLUME_LIMIT,
};

const BAD: &[u8] = b"\xff";

/// The refusal of the block at 80, no table due, after time 10.
fn refusal(block: &[u8]) -> u64 {
    refusal_by(block, mark(80, false, Some(10)))
}

/// Reads by the bookmark, and once more where one block more cannot be
/// counted: this comes last, so that it changes the answer only for a block.
fn read(volume: &[u8], mark: Bookmark) -> Result<Reading<'_>, Refusal> {
    let answer = independent::read(volume, mark);
    let expected = match answer {
        Ok(Reading::Block(..)) => no(9),
        other => other,
    };
    let full = independent::read(volume, mark.numbered(TOP));
    assert_eq!(full, expected, "{mark:?}");
    answer
}

fn refusal_by(block: &[u8], mark: Bookmark) -> u64 {
    let mut bytes = vec![0xEE; 80];
    bytes.extend(block);
    number(read(&bytes, mark))
}

#[test]
fn header_order() {
    let sound = header(0);
    let with = |changes: &[(usize, u8)]| {
        let mut bytes = sound.clone();
        for &(at, byte) in changes {
            bytes[at] = byte;
        }
        number(read_header(&bytes))
    };
    assert_eq!(read_header(&vec![0; VOLUME_LIMIT + 1]), no(1));
    assert_eq!(read_header(&[0; 79]), no(2));
    for at in 0..17 {
        assert_eq!(with(&[(at, 1), (17, 1)]), 3);
    }
    for at in [17, 34, 35] {
        assert_eq!(with(&[(at, 1)]), 4);
    }
    assert_eq!(with(&[(44, 1)]), 5);
    for at in 44..76 {
        assert_eq!(read_header(&changed(&sound, at, &[1])), no(6));
    }
    let one = header(1);
    let read = read_header(&one).unwrap();
    assert_eq!(
        (read.sequence, read.id, read.previous),
        (1, &[7; 16], &[9; 32])
    );
    assert_eq!(read.next, mark(80, true, None));
    assert_eq!(read_header(&sound).unwrap().next, mark(80, false, None));
}

#[test]
fn places() {
    let long = vec![0; VOLUME_LIMIT + 1];
    assert_eq!(read(&long, mark(0, false, None)), no(1));
    assert_eq!(read(b"", mark(79, false, None)), no(8));
    assert_eq!(read(b"", mark(0, true, None)), no(8));
    assert_eq!(read(b"", mark(80, false, None)), no(2));
    let bytes = header(0);
    assert_eq!(read(&bytes, mark(80, false, Some(3))), Ok(Reading::End));
    assert_eq!(read(&bytes, mark(80, true, None)), no(2));
    assert_eq!(read(&bytes, mark(81, false, None)), no(2));
    assert_eq!(read(&bytes, mark(TOP, false, None)), no(2));
}

#[test]
fn identifiers() {
    let due = mark(80, true, None);
    for id in (0..=255).filter(|id| !(1..=8).contains(id)) {
        assert_eq!(refusal(&[id]), 7);
        assert_eq!(refusal_by(&[id], due), 7);
    }
    assert_eq!(refusal(&[8]), 8);
    for id in 1..=7 {
        assert_eq!(refusal_by(&[id], due), 8);
        assert_eq!(refusal(&[id]), 2);
    }
    assert_eq!(refusal_by(&[8], due), 2);
}

#[test]
fn every_cut() {
    for block in one_of_each(11) {
        assert_eq!(refusal(&block), 0);
        for cut in 1..block.len() {
            assert_eq!(refusal(&block[..cut]), 2, "block {} cut at {cut}", block[0]);
        }
        assert_eq!(refusal(&spoiled(block)), 5);
    }
    let block = table(
        2,
        &[table_link(1, 2, b"a"), table_link(1, 2, b"bc")].concat(),
    );
    let due = mark(80, true, Some(10));
    assert_eq!(refusal_by(&block, due), 0);
    for cut in 1..block.len() {
        assert_eq!(refusal_by(&block[..cut], due), 2);
    }
    assert_eq!(refusal_by(&spoiled(block), due), 5);
}

#[test]
fn limits_before_rest_and_checksum() {
    let stating = |mode, n: u64| refusal(&inode_stating(11, mode, 0, n, b""));
    assert_eq!(stating(REGULAR, 58_369), 9);
    assert_eq!(stating(REGULAR, TOP), 9);
    assert_eq!(stating(REGULAR, 58_368), 2);
    assert_eq!(stating(SYMBOLIC, 58_369), 2);
    assert_eq!(stating(FOLDER, TOP), 2);
    assert_eq!(refusal(&inode_stating(11, REGULAR, 0, TOP, b"")[..70]), 2);
    assert_eq!(refusal(&inode_stating(11, REGULAR, 0, TOP, b"")[..71]), 9);

    let whole = |n: usize| inode(11, REGULAR, 0, &vec![67; n]);
    assert_eq!(refusal(&spoiled(whole(58_369))), 9);
    assert_eq!(refusal(&spoiled(whole(58_367))), 5);
    assert_eq!(refusal(&whole(58_367)), 11);

    let due = mark(80, true, None);
    assert_eq!(refusal_by(&table(4_097, b""), due), 9);
    assert_eq!(refusal_by(&table(TOP, b"")[..9], due), 9);
    assert_eq!(refusal_by(&table(TOP, b"")[..8], due), 2);
    assert_eq!(refusal_by(&table(4_096, b""), due), 2);
    assert_eq!(refusal_by(&table(0, b""), due), 0);
}

#[test]
fn lengths_near_the_top() {
    for n in [
        TOP,
        TOP - 3,
        TOP - 16,
        TOP - 17,
        TOP - 20,
        TOP - 21,
        1 << 63,
    ] {
        let mut block = data(11, b"abc");
        block[9..17].copy_from_slice(&n.to_le_bytes());
        assert_eq!(refusal(&block), 2);
        assert_eq!(refusal(&inode_stating(11, SYMBOLIC, 0, n, b"abc")), 2);
    }
}

#[test]
fn checksum_before_text() {
    let broken = [
        inode(11, SYMBOLIC, 71, BAD),
        link(2, 11, BAD),
        link(3, 11, BAD),
        xattr(11, BAD, b""),
        removed_xattr(11, BAD),
        rename(11, BAD, b""),
        rename(11, b"", BAD),
    ];
    for block in broken {
        assert_eq!(refusal(&block), 10);
        assert_eq!(refusal(&spoiled(block)), 5);
    }
}

#[test]
fn text_is_judged_part_by_part() {
    // A character that starts in one part and ends in the next is broken.
    assert_eq!(refusal(&rename(11, b"\xc3", b"\xa9")), 10);
    assert_eq!(refusal(&xattr(11, b"\xc3", b"\xa9")), 10);
    let split = [table_link(1, 1, b"\xc3"), table_link(1, 2, b"\xa9")].concat();
    assert_eq!(refusal_by(&table(2, &split), mark(80, true, None)), 10);
}

#[test]
fn text_before_fields_before_time() {
    assert_eq!(refusal(&inode(9, SYMBOLIC, 3, BAD)), 10);
    assert_eq!(refusal(&inode(9, SYMBOLIC, 3, b"t")), 11);
    assert_eq!(refusal(&inode(9, SYMBOLIC, 71, b"t")), 14);
    assert_eq!(refusal(&inode(9, FOLDER, 70, b"t")), 11);
    assert_eq!(refusal(&inode(9, FOLDER, 71, b"")), 11);
    assert_eq!(refusal(&inode(9, FOLDER, 70, b"")), 14);
    assert_eq!(refusal(&link(2, 9, BAD)), 10);
}

#[test]
fn extents_before_overlap_before_time() {
    let a = (0, 0, 3, 67, 1, 0, 0, 0);
    let b = (0, 0, 3, 67, 1, 0, 0, 2);
    let bad = (0, 0, 3, 68, 1, 0, 0, 9);
    let with = |time, list: &[Fields]| refusal(&inode(time, REGULAR, 0, &extents(list)));
    assert_eq!(with(9, &[a, b, bad]), 11);
    assert_eq!(with(9, &[a, b]), 12);
    assert_eq!(with(9, &[a]), 14);
    assert_eq!(with(10, &[a]), 0);
}

#[test]
fn extent_rules() {
    let one = |e: Fields| refusal(&inode(11, REGULAR, 0, &extents(&[e])));
    for m in [67, 82] {
        let span = if m == 67 { 6 } else { 3 };
        assert_eq!(one((TOP, TOP - span, 3, m, 2, 0, 0, TOP - 6)), 0);
        assert_eq!(one((TOP, TOP - span + 1, 3, m, 2, 0, 0, 0)), 11);
        assert_eq!(one((0, 0, 3, m, 2, 0, 0, TOP - 5)), 11);
        assert_eq!(one((0, 0, 3, m, 2, 2, 4, TOP)), 0);
        assert_eq!(one((0, 0, 3, m, 2, 3, 4, 0)), 11);
        assert_eq!(one((0, 0, 3, m, 2, 7, 0, 0)), 11);
        assert_eq!(one((0, 0, 3, m, 2, TOP, 1, 0)), 11);
        assert_eq!(one((0, 0, 3, m, 2, TOP, 7, 0)), 11);
        assert_eq!(one((0, 0, 1, m, TOP, TOP, 0, 0)), 0);
        assert_eq!(one((0, 0, TOP, m, 1, 0, 0, 0)), 0);
        assert_eq!(one((0, 0, TOP, m, 2, 0, 0, 0)), 11);
        assert_eq!(one((0, 0, 0, m, TOP, 0, 1, 0)), 11);
    }
    // Nothing kept, and still the block of a repeat must fit.
    assert_eq!(one((0, TOP, 1, 82, 0, 0, 0, 0)), 11);
    assert_eq!(one((0, TOP, 1, 67, 0, 0, 0, 0)), 0);
    for m in [0, 66, 68, 81, 83, 255] {
        assert_eq!(one((0, 0, 0, m, 0, 0, 0, 0)), 11);
    }
}

#[test]
fn overlaps_skip_what_keeps_nothing() {
    let with = |list: &[Fields]| refusal(&inode(11, REGULAR, 0, &extents(list)));
    let wide = (0, 0, 10, 67, 1, 0, 0, 0);
    let empty = (0, 0, 10, 67, 1, 4, 6, 5);
    assert_eq!(with(&[wide, empty, empty]), 0);
    assert_eq!(with(&[empty, wide]), 0);
    assert_eq!(with(&[(0, 0, 1, 67, 1, 0, 0, 10), wide]), 0);
    assert_eq!(with(&[(0, 0, 1, 67, 1, 0, 0, 9), wide]), 12);
    assert_eq!(
        with(&[wide, (0, 0, 1, 67, 1, 0, 0, 50), (0, 0, 1, 67, 1, 0, 0, 3)]),
        12
    );
    assert_eq!(with(&[wide, wide]), 12);
}

#[test]
fn table_rules() {
    let due = mark(80, true, Some(10));
    let with = |links: &[Vec<u8>]| refusal_by(&table(links.len() as u64, &links.concat()), due);
    assert_eq!(with(&[table_link(1, 2, b"a"), table_link(3, 2, b"a")]), 13);
    assert_eq!(with(&[table_link(1, 2, b"a"), table_link(1, 3, b"a")]), 0);
    assert_eq!(with(&[table_link(1, 2, b"a"), table_link(1, 2, b"aa")]), 0);
    assert_eq!(
        with(&[
            table_link(1, 2, b""),
            table_link(1, 3, b"b"),
            table_link(9, 2, b"")
        ]),
        13
    );
    assert_eq!(
        with(&[
            table_link(1, 2, b"a"),
            table_link(3, 2, b"a"),
            table_link(1, 9, BAD)
        ]),
        10
    );
}

#[test]
fn links_far_apart() {
    let due = mark(80, true, None);
    let mut links: Vec<Vec<u8>> = (0..500u64)
        .map(|k| table_link(k, 1, format!("{:03}", k * 7 % 500).as_bytes()))
        .collect();
    assert_eq!(refusal_by(&table(500, &links.concat()), due), 0);
    for (first, second) in [(0, 499), (3, 250), (498, 499)] {
        let copy = links[first].clone();
        let other = std::mem::replace(&mut links[second], copy);
        assert_eq!(refusal_by(&table(500, &links.concat()), due), 13);
        links[second] = other;
    }
}

#[test]
fn table_limit() {
    let links: Vec<Vec<u8>> = (0..4_097u64)
        .map(|k| table_link(k, k % 7, format!("{k}").as_bytes()))
        .collect();
    let whole = volume(3, &[table(4_096, &links[..4_096].concat())]);
    assert!(matches!(check(&whole), Verdict::Accepted { blocks: 1, .. }));
    let over = volume(3, &[table(4_097, &links.concat())]);
    assert_eq!(check(&over), refused(9, 80, 0));
}

#[test]
fn bookmarks_after_blocks() {
    let after = |block: &[u8], mark| {
        let mut bytes = vec![0; 90];
        bytes.extend(block);
        match read(&bytes, mark) {
            Ok(Reading::Block(_, next)) => next,
            other => panic!("{other:?}"),
        }
    };
    for block in one_of_each(11) {
        let end = 90 + block.len() as u64;
        assert_eq!(
            after(&block, mark(90, false, None)),
            mark(end, false, Some(11)).numbered(1)
        );
    }
    let block = table(0, b"");
    for last in [None, Some(4)] {
        assert_eq!(
            after(&block, mark(90, true, last)),
            mark(103, false, last).numbered(1)
        );
    }
}

#[test]
fn parts_stand_where_they_say() {
    let blocks = [
        inode(1, SYMBOLIC, 72, b"to"),
        link(2, 2, b"name"),
        link(3, 3, b"gone"),
        xattr(4, b"key", b"value"),
        removed_xattr(5, b"key"),
        data(6, b"payload"),
        rename(7, b"old", b"new"),
    ];
    let bytes = volume(
        1,
        &[vec![table(1, &table_link(4, 5, b"x"))], blocks.to_vec()].concat(),
    );
    let mut next = read_header(&bytes).unwrap().next;
    let mut seen = Vec::new();
    while let Reading::Block(block, following) = read(&bytes, next).unwrap() {
        let parts = match block.body {
            Body::Inode { variable, .. } => vec![variable],
            Body::Link { name, .. } | Body::Unlink { name, .. } => vec![name],
            Body::Xattr { name, value, .. } => vec![name, value],
            Body::RemovedXattr { name, .. } => vec![name],
            Body::Data { payload } => vec![payload],
            Body::Rename { old, new } => vec![old, new],
            Body::Table { links, .. } => vec![links],
        };
        for part in parts {
            let from = part.start as usize;
            assert_eq!(&bytes[from..from + part.bytes.len()], part.bytes);
            seen.push(part.bytes.len());
        }
        assert_eq!(following.offset, block.offset + block.length);
        next = following;
    }
    assert_eq!(seen, [19, 2, 4, 4, 3, 5, 3, 7, 3, 3]);
    assert_eq!(next, mark(bytes.len() as u64, false, Some(7)).numbered(8));
}

#[test]
fn inode_time_stands_at_nine() {
    let bytes = [vec![0; 80], inode(0x0102_0304, FOLDER, 70, b"")].concat();
    let Ok(Reading::Block(block, _)) = read(&bytes, mark(80, false, None)) else {
        panic!("refused");
    };
    assert_eq!(block.time, Some(0x0102_0304));
    let Body::Inode { stat, .. } = block.body else {
        panic!("not an inode");
    };
    assert_eq!((stat.inode, stat.uid, stat.gid), (5, 1, 2));
    assert_eq!(
        [stat.atime, stat.mtime, stat.ctime, stat.btime],
        [11, 12, 13, 14]
    );
}

#[test]
fn whole_volumes() {
    let bytes = volume(2, &[table(0, b""), table(0, b"")]);
    assert_eq!(check(&bytes), refused(8, 93, 1));
    let bytes = volume(2, &[table(0, b""), data(0, b""), table(0, b"")]);
    assert_eq!(check(&bytes), refused(8, 114, 2));
    let bytes = volume(0, &[table(0, b"")]);
    assert_eq!(check(&bytes), refused(8, 80, 0));
    let bytes = volume(TOP, &[table(0, b""), data(0, b"")]);
    for form in [crc::bits, crc::table, crc::slicing] {
        assert_eq!(check_with(&bytes, form), accepted(TOP, 2, 114, Some(0)));
    }
    let mut one_more = header(1);
    one_more.push(6);
    assert_eq!(check(&one_more), refused(8, 80, 0));
}

#[test]
fn longest_volume() {
    let mut bytes = header(0);
    let n = VOLUME_LIMIT - 80 - 21;
    let mut block = vec![6; 17 + n];
    block[9..17].copy_from_slice(&(n as u64).to_le_bytes());
    let value = crc::table(&block);
    bytes.extend(block);
    bytes.extend(value.to_le_bytes());
    assert_eq!(bytes.len(), VOLUME_LIMIT);
    assert!(matches!(check(&bytes), Verdict::Accepted { blocks: 1, .. }));
    bytes.push(0);
    assert_eq!(check(&bytes), refused(1, 0, 0));
}
