//! Lookup, runs and fetch.

mod common;

use common::*;
use independent::{fetch, lookup, read_header, run_count, runs, Place, Refusal, VOLUME_LIMIT};

fn stored(volume: u64, offset: u64) -> Result<Place, Refusal> {
    Ok(Place::Stored { volume, offset })
}

#[test]
fn lookup_order() {
    let known = lengths(&[100]);
    let long = vec![0; VOLUME_LIMIT + 1];
    for bad in [vec![0; 7], vec![0; 8 * 4_097], vec![0; 8 * 4_096 + 1]] {
        assert_eq!(lookup(&long, 0, &bad, 0), no(9));
    }
    assert_eq!(lookup(&long, 0, &vec![0; 8 * 4_096], 0), no(1));
    assert_eq!(lookup(b"", 79, &known, 0), no(8));
    assert_eq!(lookup(&header(0), 80, &known, 0), no(2));
    assert_eq!(lookup(&header(0), TOP, &known, 0), no(2));

    let bytes = volume(1, &[table(0, b""), link(2, 0, b"n")]);
    assert_eq!(lookup(&bytes, 80, &known, 0), no(8));
    assert_eq!(lookup(&bytes, 93, &known, 0), no(15));
    assert_eq!(
        lookup(&volume(0, &[inode(1, FOLDER, 70, b"")]), 80, &known, 0),
        no(15)
    );
    assert_eq!(
        lookup(&volume(0, &[inode(1, SYMBOLIC, 71, b"n")]), 80, &known, 0),
        no(15)
    );
    assert_eq!(
        lookup(&volume(0, &[spoiled(link(2, 1, b"n"))]), 80, &known, 0),
        no(5)
    );
    assert_eq!(
        lookup(&volume(0, &[link(2, 1, b"n\xff")]), 80, &known, 0),
        Err(Refusal::not_text(0, 1))
    );
}

#[test]
fn header_and_earlier_times_do_not_matter() {
    let mut bytes = volume(0, &[data(9, b""), inode(1, REGULAR, 4, b"")]);
    bytes[..80].fill(0xEE);
    assert_eq!(lookup(&bytes, 101, b"", 3), Ok(Place::Hole));
}

#[test]
fn volumes_and_ranges_must_be_there() {
    let with =
        |e: Fields, table: &[u64], position| lookup(&file(10, &[e]), 80, &lengths(table), position);
    let counted = (1, 5, 3, 67, 2, 0, 0, 0);
    assert_eq!(with(counted, &[0, 11], 5), stored(1, 10));
    assert_eq!(with(counted, &[0, 10], 5), no(16));
    assert_eq!(with(counted, &[99], 5), no(16));
    let repeated = (1, 5, 3, 82, 2, 0, 0, 0);
    assert_eq!(with(repeated, &[0, 8], 5), stored(1, 7));
    assert_eq!(with(repeated, &[0, 7], 5), no(16));
    // Said whatever is asked, above the size and for unused ends too.
    assert_eq!(with(counted, &[0, 10], TOP), no(16));
    assert_eq!(with((1, 5, 3, 67, 2, 0, 5, 50), &[0, 10], 0), no(16));
    // Nothing kept, nothing asked of the volume.
    assert_eq!(with((TOP, 5, 3, 67, 2, 3, 3, 0), &[], 0), Ok(Place::Hole));
    let mut out = [1; 5];
    let bytes = file(10, &[counted]);
    assert_eq!(runs(&bytes, 80, b"", 3, 3, &mut out), no(16));
    assert_eq!(runs(&bytes, 80, b"", 0, 3, &mut []), no(16));
    assert_eq!(out, [1; 5]);
}

#[test]
fn size_decides_the_end() {
    let bytes = file(2, &[(0, 5, 3, 67, 1, 0, 0, 0)]);
    let table = lengths(&[8]);
    assert_eq!(lookup(&bytes, 80, &table, 1), stored(0, 6));
    assert_eq!(lookup(&bytes, 80, &table, 2), Ok(Place::PastEnd));
    let mut out = [1; 6];
    assert_eq!(runs(&bytes, 80, &table, 0, TOP, &mut out), Ok(1));
    assert_eq!(out, [0, 2, 1, 0, 5, 1]);
    assert_eq!(lookup(&file(0, &[]), 80, b"", 0), Ok(Place::PastEnd));
}

#[test]
fn empty_ranges() {
    let bytes = file(10, &[]);
    for (from, to) in [(0, 0), (3, 3), (4, 3), (10, 12), (TOP, 0), (TOP, TOP)] {
        assert_eq!(runs(&bytes, 80, b"", from, to, &mut []), Ok(0));
    }
    assert_eq!(runs(&bytes, 80, b"", 9, TOP, &mut []), no(17));
}

#[test]
fn neighbours_stay_apart_and_blocks_of_a_count_together() {
    let bytes = file(
        9,
        &[
            (0, 13, 2, 67, 2, 0, 0, 4),
            (0, 10, 3, 67, 1, 0, 0, 0),
            (0, 0, 4, 67, 1, 1, 3, 3),
        ],
    );
    let mut out = [0; 20];
    assert_eq!(runs(&bytes, 80, &lengths(&[17]), 1, 9, &mut out), Ok(4));
    let rows = [1, 2, 1, 0, 11, 3, 1, 0, 0, 0, 4, 4, 1, 0, 13, 8, 1, 0, 0, 0];
    assert_eq!(out, rows);
}

#[test]
fn trimming_more_than_one_copy() {
    // Seven bytes off the front of copies of three: the third copy is first.
    let bytes = file(100, &[(0, 50, 3, 82, 6, 7, 5, 10)]);
    let table = lengths(&[53]);
    let mut out = [0; 20];
    assert_eq!(runs(&bytes, 80, &table, 10, 17, &mut out), Ok(4));
    let rows = [
        10, 2, 1, 0, 51, 12, 3, 1, 0, 50, 15, 1, 1, 0, 50, 16, 1, 0, 0, 0,
    ];
    assert_eq!(out, rows);
    assert_eq!(lookup(&bytes, 80, &table, 10), stored(0, 51));
    assert_eq!(lookup(&bytes, 80, &table, 15), stored(0, 50));
    assert_eq!(lookup(&bytes, 80, &table, 16), Ok(Place::Hole));
}

#[test]
fn very_many_copies() {
    let half = 1 << 63;
    let bytes = file(TOP, &[(0, 7, 1, 82, half, 0, 0, 3)]);
    let table = lengths(&[8]);
    assert_eq!(run_count(&bytes, 80, &table, 0, TOP), Ok(half + 2));
    let mut out = [9; 50];
    assert_eq!(runs(&bytes, 80, &table, 0, TOP, &mut out), no(17));
    assert_eq!(out, [9; 50]);
    assert_eq!(runs(&bytes, 80, &table, half, half + 10, &mut out), Ok(4));
    assert_eq!(out[..5], [half, 1, 1, 0, 7]);
}

#[test]
fn very_many_copies_end() {
    let bytes = file(TOP, &[(0, 7, 1, 82, TOP, 0, 0, 0)]);
    let table = lengths(&[8]);
    assert_eq!(run_count(&bytes, 80, &table, 0, TOP), Ok(TOP));
    let mut out = [9; 6];
    assert_eq!(runs(&bytes, 80, &table, TOP - 1, TOP, &mut out), Ok(1));
    assert_eq!(out, [TOP - 1, 1, 1, 0, 7, 9]);
}

#[test]
fn fetching() {
    let one = volume(0, &[data(1, b"1,5")]);
    let two = volume(1, &[table(0, b"")]);
    assert_eq!(fetch(&one, &two, 0, 97, 3), Ok(&b"1,5"[..]));
    assert_eq!(fetch(&two, &one, 0, 97, 3), Ok(&b"1,5"[..]));
    assert_eq!(fetch(&one, &two, 1, 80, 1), Ok(&[8][..]));
    assert_eq!(fetch(&one, &two, 2, 0, 0), no(16));
    assert_eq!(fetch(&one, &two, 0, 104, 0), Ok(&[][..]));
    assert_eq!(fetch(&one, &two, 0, 105, 0), no(16));
    assert_eq!(fetch(&one, &two, 0, 104, 1), no(16));
    assert_eq!(fetch(&one, &two, 0, TOP, TOP), no(16));
    assert_eq!(fetch(&one, &two, 0, 1, TOP), no(16));
    // Where both have the number, only the first counts.
    let short = header(0);
    assert_eq!(fetch(&short, &one, 0, 97, 3), no(16));
    assert!(std::ptr::eq(
        fetch(&one, &short, 0, 97, 3).unwrap(),
        &one[97..100]
    ));
}

#[test]
fn fetch_order() {
    let sound = header(0);
    let no_magic = vec![0; 80];
    let short = vec![0; 79];
    assert_eq!(fetch(&no_magic, &short, 0, 0, 0), no(3));
    assert_eq!(fetch(&sound, &short, 0, 0, 0), no(2));
    assert_eq!(fetch(&sound, &spoiled(header(1)), 5, 0, 0), no(5));
    assert_eq!(read_header(&spoiled(header(1))), no(5));
}
