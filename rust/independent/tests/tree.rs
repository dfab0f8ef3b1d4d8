//! The lines of a tree, by the table that decides them, and what is refused.

mod common;

use common::tree::{listed, table_of, volume_of, Links, AT};
use common::*;
use independent::tree::DEPTHS;
use independent::*;

/// Fails unless the lines are these, with so much room or more and not with
/// less.
fn expect(links: &Links, root: u64, lines: &[[u64; 2]]) {
    let volume = volume_of(links);
    let numbers = 2 * lines.len();
    for room in [numbers, numbers + 1, numbers + 2, numbers + 9] {
        assert_eq!(listed(&volume, AT, root, room), Ok(lines.to_vec()));
    }
    for room in 0..numbers {
        assert_eq!(listed(&volume, AT, root, room), no(17), "room {room}");
    }
}

/// Fails unless the first line that is too deep comes after so many.
fn expect_too_deep(links: &Links, root: u64, before: usize) {
    let volume = volume_of(links);
    for room in [0, 1, 2 * before - 2, 2 * before - 1] {
        assert_eq!(listed(&volume, AT, root, room), no(17), "room {room}");
    }
    for room in [0, 1, 2, 1_000].map(|more| 2 * before + more) {
        assert_eq!(listed(&volume, AT, root, room), no(24), "room {room}");
    }
}

/// Each link holds the next.
fn chain(many: u64) -> Vec<(u64, u64)> {
    (1..=many).map(|parent| (parent + 1, parent)).collect()
}

/// One line at each depth.
fn chain_lines(many: u64) -> Vec<[u64; 2]> {
    (0..many).map(|k| [k, k]).collect()
}

#[test]
fn a_folder_in_a_folder() {
    let links = [(2, 1), (3, 2), (4, 1)];
    expect(&links, 1, &[[0, 0], [1, 1], [0, 2]]);
    expect(&links, 2, &[[0, 1]]);
    expect(&links, 9, &[]);
    // What is linked but holds nothing.
    expect(&links, 3, &[]);
}

#[test]
fn a_link_to_its_own_folder() {
    expect_too_deep(&[(1, 1)], 1, 32);
    let volume = volume_of(&[(1, 1)]);
    for (room, number) in [(64, 24), (1_000, 24), (63, 17), (0, 17)] {
        assert_eq!(listed(&volume, AT, 1, room), no(number));
    }
    // The line before it is listed first, and only once.
    expect_too_deep(&[(2, 1), (1, 1)], 1, 64);
    expect_too_deep(&[(1, 1), (2, 1)], 1, 32);
}

#[test]
fn chains() {
    for many in [1, 2, 31, 32] {
        expect(&chain(many), 1, &chain_lines(many));
    }
    for many in [33, 34, 100, 4_096] {
        expect_too_deep(&chain(many), 1, 32);
    }
    let volume = volume_of(&chain(33));
    for (room, number) in [(63, 17), (64, 24)] {
        assert_eq!(listed(&volume, AT, 1, room), no(number));
    }
    // From the second link on it is one less.
    let lines: Vec<[u64; 2]> = (0..32).map(|k| [k, k + 1]).collect();
    expect(&chain(33), 2, &lines);
    assert_eq!(lines[DEPTHS - 1], [31, 32]);
}

/// What is too deep is not looked at before what comes earlier.
#[test]
fn lines_before_and_behind_a_chain() {
    let mut links = vec![(99, 1), (98, 1)];
    links.extend(chain(33));
    expect_too_deep(&links, 1, 34);
    let mut links = chain(33);
    links.extend([(99, 1), (98, 1)]);
    expect_too_deep(&links, 1, 32);
    // At depth 31 one link is no folder, the next one is.
    let mut links = chain(31);
    links.extend([(99, 32), (33, 32), (34, 33)]);
    expect_too_deep(&links, 1, 33);
    links.pop();
    let mut lines = chain_lines(31);
    lines.extend([[31, 31], [31, 32]]);
    expect(&links, 1, &lines);
}

#[test]
fn one_folder_under_two_names() {
    let lines = [[0, 0], [1, 2], [0, 1], [1, 2]];
    expect(&[(2, 1), (2, 1), (3, 2)], 1, &lines);
}

#[test]
fn a_parent_that_comes_later() {
    expect(&[(3, 2), (2, 1)], 1, &[[0, 1], [1, 0]]);
}

#[test]
fn every_inode_number() {
    let numbers = [0, 1, 1 << 32, 1 << 63, TOP - 1, TOP];
    for root in numbers {
        for child in numbers.into_iter().filter(|&child| child != root) {
            expect(&[(child, root)], root, &[[0, 0]]);
            expect(&[(child, root)], child, &[]);
        }
        expect_too_deep(&[(root, root)], root, 32);
        expect(&[], root, &[]);
    }
}

/// The flag of the bookmark is not asked, nor are its time and its number.
#[test]
fn every_bookmark_at_a_table() {
    let volume = volume_of(&[(2, 1), (3, 2)]);
    let lines = vec![[0, 0], [1, 1]];
    for due in [false, true] {
        for last in [None, Some(0), Some(TOP)] {
            for number in [0, 1, TOP - 1] {
                let at = mark(80, due, last).numbered(number);
                assert_eq!(listed(&volume, at, 1, 4), Ok(lines.clone()));
            }
            let full = mark(80, due, last).numbered(TOP);
            for root in [1, 9] {
                assert_eq!(listed(&volume, full, root, 4), no(9));
            }
        }
    }
}

/// Where there is no table. "End" is not told: the table is due.
#[test]
fn no_table_there() {
    let v = [header_with([0; 16], 0, [0; 32]), data(7, b"1,5")].concat();
    let table_behind = volume_of(&[(2, 1)]);
    let end = table_behind.len() as u64;
    let rows = [
        (&v, 80, 8),
        (&v, 104, 2),
        (&v, 105, 2),
        (&v, TOP, 2),
        (&v, 79, 8),
        (&v, 0, 8),
        (&table_behind, 79, 8),
        (&table_behind, 81, 8),
        (&table_behind, end, 2),
        (&table_behind, end + 1, 2),
    ];
    for (volume, offset, number) in rows {
        for due in [false, true] {
            let at = mark(offset, due, None);
            assert_eq!(listed(volume, at, 1, 10), no(number), "at {offset}");
            // What the block is refused for comes before its number.
            let full = at.numbered(TOP);
            assert_eq!(listed(volume, full, 1, 10), no(number));
        }
    }
    for id in [0, 9, 255] {
        let unknown = [header(1), vec![id]].concat();
        assert_eq!(listed(&unknown, AT, 1, 10), no(7));
    }
    for block in one_of_each(1) {
        assert_eq!(listed(&volume(1, &[block]), AT, 1, 10), no(8));
    }
}

/// A table is read where it stands, whatever stands before it.
#[test]
fn a_table_behind_other_bytes() {
    let table = table_of(&[(2, 1), (3, 2)]);
    for before in [80, 81, 200, 5_000] {
        let volume = [noise(before, before as usize), table.clone()].concat();
        let at = Bookmark::at(before);
        assert_eq!(listed(&volume, at, 1, 4), Ok(vec![[0, 0], [1, 1]]));
    }
}

#[test]
fn tables_that_are_refused() {
    let sound = table_of(&[(2, 1), (3, 2)]);
    let in_volume = |table: &[u8]| [&header(1)[..], table].concat();
    let refusal = |table: &[u8]| {
        let told = listed(&in_volume(table), AT, 1, 100);
        // With no room nothing else is told, nor for an unknown root.
        assert_eq!(listed(&in_volume(table), AT, 9, 0), told);
        told.expect_err("a refusal")
    };
    for length in 0..sound.len() {
        assert_eq!(refusal(&sound[..length]), Refusal::of(2));
    }
    assert_eq!(refusal(&spoiled(sound)), Refusal::of(5));
    let same = table_link(2, 1, b"a");
    let twice = table(2, &[&same[..], &same].concat());
    assert_eq!(refusal(&twice), Refusal::of(13));
    // Another child does not make it another link.
    let other = [&same[..], &table_link(3, 1, b"a")].concat();
    assert_eq!(refusal(&table(2, &other)), Refusal::of(13));
    let bad = [&same[..], &table_link(3, 1, b"ab\xff")].concat();
    assert_eq!(refusal(&table(2, &bad)), Refusal::not_text(1, 2));
    assert_eq!(refusal(&table(4_097, b"")), Refusal::of(9));
    let long = vec![0; VOLUME_LIMIT + 1];
    assert_eq!(listed(&long, AT, 1, 0), no(1));
}

/// A folder with two links to the next one: with so many levels below it,
/// its two links come to two less than this power of two.
fn diamond(levels: u64) -> Vec<(u64, u64)> {
    (1..=levels).flat_map(|k| [(k + 1, k); 2]).collect()
}

#[test]
fn lines_double_from_level_to_level() {
    for levels in 1..=16 {
        let volume = volume_of(&diamond(levels));
        let lines = (2 << levels) - 2;
        for (room, fits) in [(2 * lines, true), (2 * lines - 1, false)] {
            let told = listed(&volume, AT, 1, room).map(|list| list.len());
            assert_eq!(told, if fits { Ok(lines) } else { no(17) });
        }
    }
}

/// There are more lines than can be counted, and no room for them.
#[test]
fn more_lines_than_any_room() {
    for links in [diamond(32), diamond(31)] {
        let volume = volume_of(&links);
        for room in [0, 64, 65, 1_000_000] {
            assert_eq!(listed(&volume, AT, 1, room), no(17));
        }
    }
    expect_too_deep(&diamond(33), 1, 32);
    // 128 links at each of 32 depths: above 2^64, and one more level.
    let wide = |levels: u64| -> Vec<(u64, u64)> {
        let level = |k| (0..4_096 / levels).map(move |_| (k + 1, k));
        (1..=levels).flat_map(level).collect()
    };
    let volume = volume_of(&wide(32));
    assert_eq!(listed(&volume, AT, 1, 1_000_000), no(17));
    expect_too_deep(&wide(33), 1, 32);
    // A chain that is too deep comes behind all these lines, or before them.
    let mut links: Vec<(u64, u64)> = (301..=332).map(|k| (k + 1, k)).collect();
    links.extend(wide(32).into_iter().take(4_000));
    links.push((301, 1));
    let volume = volume_of(&links);
    assert_eq!(listed(&volume, AT, 1, 1_000_000), no(17));
    links.rotate_right(1);
    expect_too_deep(&links, 1, 32);
}

#[test]
fn the_longest_table() {
    let links: Vec<(u64, u64)> = (0..4_096).map(|k| (k + 2, 1)).collect();
    let volume = volume_of(&links);
    let lines: Vec<[u64; 2]> = (0..4_096).map(|k| [0, k]).collect();
    assert_eq!(listed(&volume, AT, 1, 8_192), Ok(lines.clone()));
    assert_eq!(listed(&volume, AT, 1, 8_193), Ok(lines));
    assert_eq!(listed(&volume, AT, 1, 8_191), no(17));
    // Level by level, the deepest links first.
    let links: Vec<(u64, u64)> = (0..4_096).map(|k| (k + 1, k / 16)).rev().collect();
    let told = listed(&volume_of(&links), AT, 0, 8_192).expect("lines");
    assert_eq!(told.len(), 4_096);
    assert_eq!(told[..3], [[0, 4_080], [1, 3_824], [1, 3_825]]);
    assert_eq!(told[4_095], [2, 3_823]);
}
