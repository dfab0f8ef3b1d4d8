//! The number of each block, which is that of the blocks before it, and the
//! largest number, after which none can be counted.

mod common;

use common::*;
use independent::*;

fn by(offset: u64, due: bool, last: Option<u64>, number: u64) -> Bookmark {
    mark(offset, due, last).numbered(number)
}

/// The block's own number and the next bookmark; nothing at the end.
type Told = Result<Option<(u64, Bookmark)>, Refusal>;

fn told(volume: &[u8], mark: Bookmark) -> Told {
    read(volume, mark).map(|reading| match reading {
        Reading::End => None,
        Reading::Block(block, next) => Some((block.number, next)),
    })
}

#[test]
fn readings_of_v() {
    let v = sample("v.vol");
    let damaged = spoiled(v.clone());
    let end = |number| by(104, false, Some(7), number);
    let rows: [(&[u8], Bookmark, Told); 10] = [
        (&v, by(80, false, None, 0), Ok(Some((0, end(1))))),
        (&v, by(80, false, None, 17), Ok(Some((17, end(18))))),
        (
            &v,
            by(80, false, None, TOP - 1),
            Ok(Some((TOP - 1, end(TOP)))),
        ),
        (&v, end(TOP), Ok(None)),
        (&v, by(80, false, None, TOP), no(9)),
        (&v, by(80, false, Some(8), TOP), no(14)),
        (&damaged, by(80, false, Some(8), TOP), no(5)),
        (&v, by(80, true, None, TOP), no(8)),
        (&v, by(79, false, None, TOP), no(8)),
        (&v, by(105, false, None, TOP), no(2)),
    ];
    for (volume, mark, answer) in rows {
        assert_eq!(told(volume, mark), answer, "{mark:?}");
    }
}

/// Volume V with so many bytes of room behind it.
fn with_room(room: usize) -> Vec<u8> {
    let mut buffer = sample("v.vol");
    buffer.resize(buffer.len() + room, 0xEE);
    buffer
}

#[test]
fn appends_to_v_that_cannot_be_counted() {
    let full = by(104, false, Some(7), TOP);
    let due = Bookmark { due: true, ..full };
    let data: TimedAppend = |buffer, mark, time| append_data(buffer, mark, time, b"1,5");
    let not_text: TimedAppend = |buffer, mark, time| append_link(buffer, mark, time, 5, 1, b"\xff");
    let wrong_links: TimedAppend = |buffer, mark, _| append_table(buffer, mark, 1, b"");
    let rows = [
        (data, full, 9),
        (data, due, 8),
        (not_text, full, 9),
        (wrong_links, due, 9),
    ];
    for (append, mark, refusal) in rows {
        let mut buffer = with_room(99);
        assert_eq!(append(&mut buffer, mark, 7), no(refusal), "{mark:?}");
        assert_eq!(buffer, with_room(99));
    }
}

#[test]
fn the_last_append_to_v_that_can_be_counted() {
    let mut buffer = with_room(2 * 24);
    let next = append_data(&mut buffer, by(104, false, Some(7), TOP - 1), 7, b"1,5");
    let end = by(128, false, Some(7), TOP);
    assert_eq!(next, Ok(end));
    let kept = buffer.clone();
    assert_eq!(append_data(&mut buffer, end, 7, b"1,5"), no(9));
    assert_eq!(buffer, kept);
    assert_eq!(told(&buffer[..128], end), Ok(None));
}

/// An image of each kind with its append, and whether a table must be due.
fn every_kind() -> Vec<(Vec<u8>, TimedAppend, bool)> {
    let images = one_of_each(9).into_iter().zip(APPENDS);
    let mut kinds: Vec<_> = images
        .map(|(image, append)| (image, append, false))
        .collect();
    let append: TimedAppend = |buffer, mark, _| append_table(buffer, mark, 0, b"");
    kinds.push((table(0, b""), append, true));
    kinds
}

#[test]
fn every_kind_is_counted() {
    for (image, append, due) in every_kind() {
        let bytes = [header(0), image].concat();
        let blank = vec![0xEE; bytes.len()];
        for number in [0, 1, 17, 1 << 32, TOP - 1] {
            let from = by(80, due, Some(9), number);
            let next = by(bytes.len() as u64, false, Some(9), number + 1);
            assert_eq!(told(&bytes, from), Ok(Some((number, next))));
            assert_eq!(append(&mut blank.clone(), from, 9), Ok(next));
        }
        let full = by(80, due, Some(9), TOP);
        assert_eq!(told(&bytes, full), no(9));
        let mut buffer = blank.clone();
        assert_eq!(append(&mut buffer, full, 9), no(9));
        assert_eq!(buffer, blank);
    }
}

#[test]
fn checks_of_samples() {
    let v = sample("v.vol");
    assert_eq!(check(&v), accepted(0, 1, 104, Some(7)));

    let all = sample("all_kinds.vol");
    let header = read_header(&all).expect("a header");
    let mut mark = header.next;
    let mut blocks = Vec::new();
    while let Ok(Reading::Block(block, next)) = read(&all, mark) {
        blocks.push((block.number, block.id));
        mark = next;
    }
    assert!(blocks.iter().map(|block| block.0).eq(0..10));
    assert_eq!(blocks[0].1, block::TABLE);
    let end = all.len() as u64;
    assert_eq!(mark, by(end, false, mark.last, 10));
    assert_eq!(check(&all), accepted(header.sequence, 10, end, mark.last));
}

/// The number of blocks before a fault is the number of the block at fault;
/// a header at fault has none before it.
#[test]
fn checks_of_volumes_at_fault() {
    let mut blocks = vec![table(0, b"")];
    blocks.extend(one_of_each(9));
    for place in 0..blocks.len() {
        let mut blocks = blocks.clone();
        let offset = volume(1, &blocks[..place]).len() as u64;
        blocks[place] = spoiled(blocks[place].clone());
        assert_eq!(check(&volume(1, &blocks)), refused(5, offset, place as u64));
    }
    let damaged = [spoiled(header(1)), blocks.concat()].concat();
    assert_eq!(check(&damaged), refused(5, 0, 0));
}
