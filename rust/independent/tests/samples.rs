//! The samples that the rules give, as they stand there.

mod common;

use common::*;
use independent::{check, listing, lookup, run_count, runs, Extent, Place, Refusal, Verdict};

/// Runs as rows, or the refusal; unused room must stay untouched.
fn rows(
    bytes: &[u8],
    lengths: &[u8],
    from: u64,
    to: u64,
    room: usize,
) -> Result<Vec<u64>, Refusal> {
    let mut out = vec![77; room];
    let answer = runs(bytes, 80, lengths, from, to, &mut out);
    let used = 5 * answer.unwrap_or(0) as usize;
    assert!(out[used..].iter().all(|&number| number == 77));
    out.truncate(used);
    answer.map(|_| out)
}

#[test]
fn short_inputs() {
    assert_eq!(check(b""), refused(2, 0, 0));
    assert_eq!(check(&[0; 79]), refused(2, 0, 0));
    assert_eq!(check(&header(0)[..79]), refused(2, 0, 0));
}

#[test]
fn headers_alone() {
    assert_eq!(check(&header(0)), accepted(0, 0, 80, None));
    assert_eq!(check(&header(1)), refused(2, 80, 0));
}

fn sample_v() -> Vec<u8> {
    volume(0, &[data(1, b"1,5")])
}

#[test]
fn volume_v() {
    let v = sample_v();
    assert_eq!(v.len(), 104);
    assert_eq!(&v[97..100], b"1,5");
    assert_eq!(check(&v), accepted(0, 1, 104, Some(1)));
}

#[test]
fn file_a() {
    let table = lengths(&[104]);
    let a = file(3, &[(0, 97, 3, 67, 1, 0, 0, 0)]);
    assert_eq!(rows(&a, &table, 0, 3, 5), Ok(vec![0, 3, 1, 0, 97]));
    assert_eq!(lookup(&a, 80, &table, 3), Ok(Place::PastEnd));
    let stored = Place::Stored {
        volume: 0,
        offset: 99,
    };
    assert_eq!(lookup(&a, 80, &table, 2), Ok(stored));

    let trimmed = file(3, &[(0, 97, 3, 67, 1, 0, 2, 0)]);
    assert_eq!(
        rows(&trimmed, &table, 0, 3, 10),
        Ok(vec![0, 1, 1, 0, 97, 1, 2, 0, 0, 0])
    );
    assert_eq!(lookup(&trimmed, 80, &table, 1), Ok(Place::Hole));
}

#[test]
fn file_b() {
    let table = lengths(&[104]);
    let b = file(14, &[(0, 97, 3, 82, 3, 1, 1, 4)]);
    let expected = vec![
        0, 4, 0, 0, 0, // hole
        4, 2, 1, 0, 98, // end of the first copy
        6, 3, 1, 0, 97, // second copy
        9, 2, 1, 0, 97, // beginning of the third
        11, 3, 0, 0, 0, // hole
    ];
    assert_eq!(rows(&b, &table, 0, 14, 25), Ok(expected));
    assert_eq!(rows(&b, &table, 0, 14, 24), no(17));
    assert_eq!(run_count(&b, 80, &table, 0, 14), Ok(5));
    assert_eq!(kept(3, 82, 3, 1, 1, 4), Some(7));
}

fn kept(size: u64, multiplicity: u8, count: u64, pre: u64, post: u64, logical: u64) -> Option<u64> {
    let extent = Extent {
        volume: 0,
        start: 0,
        size,
        multiplicity,
        count,
        pre,
        post,
        logical,
    };
    extent.kept()
}

#[test]
fn products() {
    let wide = 1 << 32;
    for multiplicity in [67, 82] {
        let bytes = file(1, &[(0, 0, wide, multiplicity, wide, 0, 0, 0)]);
        assert_eq!(check(&bytes), refused(11, 80, 0));
        assert_eq!(kept(0, multiplicity, TOP, 0, 0, 0), Some(0));
        assert_eq!(
            kept(wide, multiplicity, wide - 1, 0, 0, 0),
            Some(wide * (wide - 1))
        );
    }
}

#[test]
fn neighbours_and_overlaps() {
    let touching = file(5, &[(0, 0, 3, 67, 1, 0, 0, 0), (0, 0, 2, 67, 1, 0, 0, 3)]);
    assert!(matches!(check(&touching), Verdict::Accepted { .. }));
    let crossing = file(5, &[(0, 0, 3, 67, 1, 0, 0, 0), (0, 0, 3, 67, 1, 0, 0, 2)]);
    assert_eq!(check(&crossing), refused(12, 80, 0));
}

#[test]
fn extent_limit() {
    let list: Vec<Fields> = (0..1025).map(|k| (0, 0, 1, 67, 1, 0, 0, k)).collect();
    assert!(matches!(
        check(&file(9, &list[..1024])),
        Verdict::Accepted { .. }
    ));
    assert_eq!(check(&file(9, &list)), refused(9, 80, 0));
}

#[test]
fn listings() {
    let v = sample_v();
    assert_eq!(listing(&v), "offset id length\n80 6 24\nend 104 blocks 1\n");
    let broken = volume(0, &[spoiled(data(1, b"1,5"))]);
    assert_eq!(listing(&broken), "offset id length\nrefused 5 at 80\n");
    assert_eq!(listing(b""), "offset id length\nrefused 2 at 0\n");
    let long = vec![0; 65_537];
    assert_eq!(listing(&long), "offset id length\nrefused 1 at 0\n");
    let full = volume(0, &[data(1, &vec![0; 65_536 - 101])]);
    assert_eq!(
        listing(&full),
        "offset id length\n80 6 65456\nend 65536 blocks 1\n"
    );
}
