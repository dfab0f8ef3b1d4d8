//! A time may be the same as the last one before it, and not lower.

mod common;

use common::*;
use independent::*;

/// Volume 0 with a data block of 24 bytes at each of these times.
fn logged(times: &[u64]) -> Vec<u8> {
    let blocks: Vec<Vec<u8>> = times.iter().map(|&time| data(time, b"1,5")).collect();
    volume(0, &blocks)
}

#[test]
fn equal_times_are_accepted() {
    for time in [0, 7, TOP] {
        let bytes = logged(&[time, time]);
        assert_eq!(bytes.len(), 128);
        assert_eq!(check(&bytes), accepted(0, 2, 128, Some(time)));
        let lines = "offset id length\n80 6 24\n104 6 24\nend 128 blocks 2\n";
        assert_eq!(listing(&bytes), lines);
        let many = logged(&[time; 40]);
        assert_eq!(check(&many), accepted(0, 40, 80 + 40 * 24, Some(time)));
    }
}

#[test]
fn lower_times_are_refused() {
    for times in [[7, 6], [1, 0], [TOP, 0], [TOP, TOP - 1]] {
        let bytes = logged(&times);
        assert_eq!(check(&bytes), refused(14, 104, 1));
        let lines = "offset id length\n80 6 24\nrefused 14 at 104\n";
        assert_eq!(listing(&bytes), lines);
    }
    assert_eq!(check(&logged(&[6, 7, 7, 6])), refused(14, 152, 3));
}

#[test]
fn a_link_and_its_inode_at_one_time() {
    let bytes = volume(0, &[link(2, 5, b"a"), inode(5, FOLDER, 70, b"")]);
    assert_eq!(bytes.len(), 187);
    assert_eq!(check(&bytes), accepted(0, 2, 187, Some(5)));
}

#[test]
fn a_table_leaves_the_last_time_as_it_was() {
    let bytes = volume(1, &[table(0, b""), data(0, b"")]);
    assert_eq!(bytes.len(), 114);
    assert_eq!(check(&bytes), accepted(1, 2, 114, Some(0)));

    let bytes = volume(1, &[table(0, b""), data(7, b"")]);
    for (last, after) in [(6, Ok(())), (7, Ok(())), (8, no(14))] {
        let Ok(Reading::Block(_, next)) = read(&bytes, mark(80, true, Some(last))) else {
            panic!("the table is refused");
        };
        assert_eq!(next, mark(93, false, Some(last)).numbered(1));
        assert_eq!(read(&bytes, next).map(|_| ()), after);
    }
}

#[test]
fn appends_at_the_end_of_a_volume() {
    let mut buffer = logged(&[7]);
    buffer.resize(128, 0xEE);
    let kept = buffer.clone();
    let end = mark(104, false, Some(7)).numbered(1);
    assert_eq!(append_data(&mut buffer, end, 6, b"1,5"), no(14));
    assert_eq!(buffer, kept);
    let next = append_data(&mut buffer, end, 7, b"1,5");
    assert_eq!(next, Ok(mark(128, false, Some(7)).numbered(2)));
    assert_eq!(buffer, logged(&[7, 7]));
}

/// Last times and times that may follow. No last time is as good as 0.
const FOLLOWING: [(Option<u64>, u64); 9] = [
    (None, 0),
    (Some(0), 0),
    (None, 1),
    (Some(0), 1),
    (Some(7), 7),
    (Some(7), 8),
    (Some(7), TOP),
    (Some(TOP), TOP),
    (None, TOP),
];

/// Last times and times that are lower.
const LOWER: [(Option<u64>, u64); 5] = [
    (Some(1), 0),
    (Some(7), 6),
    (Some(7), 0),
    (Some(TOP), TOP - 1),
    (Some(TOP), 0),
];

#[test]
fn every_kind_may_follow() {
    for (last, time) in FOLLOWING {
        let from = mark(80, false, last);
        for (image, append) in one_of_each(time).iter().zip(APPENDS) {
            let bytes = [header(0), image.clone()].concat();
            let end = mark(bytes.len() as u64, false, Some(time)).numbered(1);
            let Ok(Reading::Block(block, next)) = read(&bytes, from) else {
                panic!("{last:?}, then block {} at {time}", image[0]);
            };
            assert_eq!((block.time, next), (Some(time), end));
            let mut buffer = header(0);
            buffer.resize(bytes.len(), 0xEE);
            assert_eq!(append(&mut buffer, from, time), Ok(end));
            assert_eq!(buffer, bytes);
        }
    }
}

#[test]
fn no_kind_has_a_lower_time() {
    for (last, time) in LOWER {
        let from = mark(80, false, last);
        for (image, append) in one_of_each(time).iter().zip(APPENDS) {
            let bytes = [header(0), image.clone()].concat();
            assert_eq!(read(&bytes, from), no(14));
            let mut buffer = vec![0xEE; bytes.len()];
            assert_eq!(append(&mut buffer, from, time), no(14));
            assert!(buffer.iter().all(|&byte| byte == 0xEE));
        }
    }
}
