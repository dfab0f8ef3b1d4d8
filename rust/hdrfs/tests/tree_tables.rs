//! Tables that are refused before any tree is listed, the place that a refusal has, and what a table
//! is by itself.

mod support;

use std::collections::hash_map::DefaultHasher;
use std::hash::{Hash, Hasher};

use hdrfs::{sys, Blocks, Bookmark, Content, LinkTable, Refusal, Volume, MAX_VOLUME_LEN};
use support::{data, header, sealed, small_volume, table};

/// A volume whose table is refused: the call, with its list, and the crate, with the place.
fn is_refused(volume: &[u8], refusal: u64, text: u64, start: u64) {
    let mut list = [7; 10];
    let answer = sys::tree(volume, 80, 0, 0, 0, 1, &mut list);
    let expected = sys::Lines {
        refusal,
        text,
        start,
        lines: 0,
    };
    assert_eq!((answer, list), (expected, [7; 10]));
    let at_80 = Refusal::new(refusal, 80).with_block(Some(0));
    let found = Volume::link_table(volume).unwrap_err();
    assert_eq!(found, at_80.with_text(text, start));
}

#[test]
fn tables_that_are_refused() {
    let sound = table(&[(2, 1, b"a"), (3, 1, b"b")]);
    let with = |block: &[u8]| [&header(1), block].concat();
    let mut damaged = sound.clone();
    damaged[9] ^= 1;
    is_refused(&with(&damaged), 5, 0, 0);
    for len in 0..sound.len() {
        is_refused(&with(&sound[..len]), 2, 0, 0);
    }
    is_refused(&with(&table(&[(2, 1, b"a"), (3, 1, b"a")])), 13, 0, 0);
    let names = [(2, 1, &b"a"[..]), (3, 1, b"\xC3\xA9\x80"), (4, 1, b"\xFF")];
    is_refused(&with(&table(&names)), 10, 1, 2);
    is_refused(&with(&sealed(vec![9])), 7, 0, 0);
    is_refused(&with(&data(7, b"1,5")), 8, 0, 0);
    let names: Vec<String> = (0..4097).map(|place| format!("n{place}")).collect();
    let links: Vec<(u64, u64, &[u8])> = names.iter().map(|name| (2, 1, name.as_bytes())).collect();
    is_refused(&with(&table(&links)), 9, 0, 0);
    assert_eq!(
        Volume::link_table(&with(&table(&links[1..])))
            .unwrap()
            .len(),
        4096
    );
}

#[test]
fn volume_0_has_no_table() {
    is_refused(&small_volume(), 8, 0, 0);
    is_refused(&header(0), 2, 0, 0);
    // Nor is there one in it: the check refuses this volume. It is read where it stands.
    let volume = [header(0), table(&[(2, 1, b"a")])].concat();
    assert_eq!(Volume::check(&volume).unwrap_err().refusal.number, 8);
    assert_eq!(Volume::link_table(&volume).unwrap().len(), 1);
}

#[test]
fn only_the_header_and_the_table_are_looked_at() {
    let mut volume = [header(1), table(&[(2, 1, b"a")]), vec![9]].concat();
    assert_eq!(
        Volume::link_table(&volume).unwrap().tree(1).unwrap().len(),
        1
    );
    assert_eq!(Volume::check(&volume).unwrap_err().refusal.number, 7);
    volume[20] ^= 1;
    assert_eq!(Volume::link_table(&volume).unwrap_err(), Refusal::new(5, 0));
    volume[20] ^= 1;
    volume.resize(MAX_VOLUME_LEN + 1, 0);
    assert_eq!(Volume::link_table(&volume).unwrap_err(), Refusal::new(1, 0));
    assert_eq!(sys::tree(&volume, 80, 0, 0, 0, 1, &mut [0; 2]).refusal, 1);
}

/// The first table that a walk from a bookmark meets.
fn first_table(volume: &[u8], mark: Bookmark) -> LinkTable<'_> {
    let block = Blocks::at(volume, mark).next().unwrap().unwrap();
    match block.content {
        Content::LinkTable(table) => table,
        other => panic!("{other:?}"),
    }
}

/// A table of a walk lists its tree where it was read, under the number that it had there.
#[test]
fn a_table_at_another_place() {
    let volume = [small_volume(), table(&[(2, 1, b"a"), (2, 2, b"b")])].concat();
    let mark = Bookmark::at(104).with_table_due(true).with_number(17);
    let found = first_table(&volume, mark.with_last_time(Some(u64::MAX)));
    assert_eq!(found.tree(3).unwrap().len(), 0);
    let refusal = found.tree(1).unwrap_err();
    let words = "refused 24 at 104 (block 17): listing too deep: a link at depth 32";
    assert_eq!(refusal.to_string(), words);
    let refusal = found.tree_within(1, 31).unwrap_err();
    let words = "refused 17 at 104 (block 17): no room for the result";
    assert_eq!(refusal.to_string(), words);
    let last = mark.with_number(u64::MAX - 1);
    assert_eq!(
        first_table(&volume, last).tree(1).unwrap_err().block,
        Some(u64::MAX - 1)
    );
}

fn hash(table: &LinkTable<'_>) -> u64 {
    let mut hasher = DefaultHasher::new();
    table.hash(&mut hasher);
    hasher.finish()
}

/// Tables are compared by their links, and not by the places where they stand.
#[test]
fn the_same_links_in_two_volumes() {
    let links = table(&[(2, 1, b"a")]);
    let first = [header(1), links.clone()].concat();
    let second = [small_volume(), links].concat();
    let third = [header(1), table(&[(2, 1, b"b")])].concat();
    let due = Bookmark::at(104).with_table_due(true).with_number(5);
    let (a, b) = (
        Volume::link_table(&first).unwrap(),
        first_table(&second, due),
    );
    let c = Volume::link_table(&third).unwrap();
    assert_eq!((a, hash(&a)), (b, hash(&b)));
    assert_ne!(a, c);
    assert_ne!(hash(&a), hash(&c));
    let shown =
        "LinkTable { links: [2, 0, 0, 0, 0, 0, 0, 0, 1, 0, 0, 0, 0, 0, 0, 0, 1, 0, 97], count: 1 }";
    assert_eq!(
        (format!("{a:?}"), format!("{b:?}")),
        (shown.to_string(), shown.to_string())
    );
}
