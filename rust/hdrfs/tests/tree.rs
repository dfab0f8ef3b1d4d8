//! The tree below a folder: which lines it has, in which order, how much room they take and what is
//! refused; number by number in the lent list, and with names.

mod support;

use hdrfs::{sys, LinkTable, Refusal, Tree, TreeLine, Volume};
use support::{header, small_volume, table, Numbers};

/// Child and parent of a link, and depth and place of a line.
type Pair = (u64, u64);

/// A table's links as it is made of them: child, parent and name.
type Named<'a> = (u64, u64, &'a [u8]);

/// Volume 1 with a table of links. The name of the link with place 12 is `n12`.
fn volume(links: &[Pair]) -> Vec<u8> {
    let names: Vec<String> = (0..links.len()).map(|place| format!("n{place}")).collect();
    let named = links.iter().zip(&names);
    let named = named.map(|(link, name)| (link.0, link.1, name.as_bytes()));
    of_named(&named.collect::<Vec<Named>>())
}

fn of_named(links: &[Named]) -> Vec<u8> {
    [header(1), table(links)].concat()
}

/// Links that lead from 1 to 2, to 3 and so on.
fn chain(len: u64) -> Vec<Pair> {
    (1..=len).map(|parent| (parent + 1, parent)).collect()
}

/// The same, each under two names: one folder more doubles the lines.
fn doubled(len: u64) -> Vec<Pair> {
    let links = chain(len);
    links.iter().flat_map(|&link| [link, link]).collect()
}

/// A bookmark, in the order of the call.
#[derive(Clone, Copy)]
struct Mark {
    offset: u64,
    timed: u64,
    last: u64,
    number: u64,
}

const TABLE: Mark = Mark {
    offset: 80,
    timed: 0,
    last: 0,
    number: 0,
};

/// What stands in a lent list beforehand: at each place another number, and none that a line has.
fn pattern(place: usize) -> u64 {
    1_000_000 + place as u64
}

/// Asks for a tree with so much room, and compares the answer and the whole list, and some numbers
/// behind it that were not lent.
fn answers(volume: &[u8], mark: Mark, root: u64, room: usize, answer: sys::Lines, lines: &[Pair]) {
    let all = room + 9;
    let mut list: Vec<u64> = (0..all).map(pattern).collect();
    let out = &mut list[..room];
    let (timed, last) = (mark.timed, mark.last);
    let found = sys::tree(volume, mark.offset, timed, last, mark.number, root, out);
    assert_eq!(found, answer, "root {root}, room {room}");
    let numbers = lines.iter().flat_map(|&(depth, place)| [depth, place]);
    let whole: Vec<u64> = numbers.chain((2 * lines.len()..all).map(pattern)).collect();
    assert_eq!(list, whole, "root {root}, room {room}");
}

fn lines(links: &[Pair], root: u64, room: usize, lines: &[Pair]) {
    let answer = sys::Lines {
        lines: lines.len() as u64,
        ..Default::default()
    };
    answers(&volume(links), TABLE, root, room, answer, lines);
}

fn refused(links: &[Pair], root: u64, room: usize, refusal: u64) {
    refused_at(&volume(links), TABLE, root, room, refusal);
}

fn refused_at(volume: &[u8], mark: Mark, root: u64, room: usize, refusal: u64) {
    let answer = sys::Lines {
        refusal,
        ..Default::default()
    };
    answers(volume, mark, root, room, answer, &[]);
}

/// A refusal about the table at 80.
fn at_the_table(number: u64) -> Refusal {
    Refusal::new(number, 80).with_block(Some(0))
}

/// The depths and places of the lines of a tree, which have to be the links of the table.
fn places(table: LinkTable<'_>, tree: Tree<'_>) -> Vec<Pair> {
    let links: Vec<_> = table.iter().collect();
    let place = |line: TreeLine<'_>| {
        let link = links[line.place];
        assert_eq!((line.child, line.name), (link.child, link.name));
        assert_eq!(line.name, format!("n{}", line.place));
        (line.depth as u64, line.place as u64)
    };
    tree.map(place).collect()
}

/// A tree that has lines: with every room and limit around their number, and with none given.
fn has_lines(links: &[Pair], root: u64, expected: &[Pair]) {
    let (bytes, all) = (volume(links), expected.len());
    let table = Volume::link_table(&bytes).unwrap();
    assert_eq!(places(table, table.tree(root).unwrap()), expected);
    for limit in [all, all + 1, 2 * all, usize::MAX] {
        let tree = table.tree_within(root, limit).unwrap();
        assert_eq!(tree.len(), all);
        assert_eq!(places(table, tree), expected, "{limit}");
    }
    for limit in 0..all {
        let refusal = table.tree_within(root, limit).unwrap_err();
        assert_eq!(refusal, at_the_table(17), "{limit}");
    }
    for room in 2 * all..2 * all + 4 {
        lines(links, root, room, expected);
    }
    for room in 0..2 * all {
        refused(links, root, room, 17);
    }
}

/// A tree that ends at depth 32, after so many lines.
fn ends_after(links: &[Pair], root: u64, before: usize) {
    let bytes = volume(links);
    let table = Volume::link_table(&bytes).unwrap();
    assert_eq!(table.tree(root).unwrap_err(), at_the_table(24));
    for limit in [before, before + 1, 1000] {
        let refusal = table.tree_within(root, limit).unwrap_err();
        assert_eq!(refusal, at_the_table(24), "{limit}");
    }
    let refusal = table.tree_within(root, before - 1).unwrap_err();
    assert_eq!(refusal, at_the_table(17));
    for room in [2 * before, 2 * before + 1, 1000] {
        refused(links, root, room, 24);
    }
    for room in [0, 1, 2, 2 * before - 2, 2 * before - 1] {
        refused(links, root, room, 17);
    }
}

const SMALL: [Pair; 3] = [(2, 1), (3, 2), (4, 1)];

#[test]
fn a_folder_with_a_folder_in_it() {
    for room in [6, 7, 1000] {
        lines(&SMALL, 1, room, &[(0, 0), (1, 1), (0, 2)]);
    }
    refused(&SMALL, 1, 5, 17);
    has_lines(&SMALL, 1, &[(0, 0), (1, 1), (0, 2)]);
    has_lines(&SMALL, 2, &[(0, 1)]);
}

#[test]
fn a_root_that_holds_nothing() {
    for root in [9, 3, 4, 0, u64::MAX] {
        lines(&SMALL, root, 0, &[]);
        has_lines(&SMALL, root, &[]);
    }
    has_lines(&[], 1, &[]);
}

#[test]
fn numbers_from_the_edges() {
    has_lines(&[(u64::MAX, 0), (0, u64::MAX - 1)], 0, &[(0, 0)]);
    let links = [(0, u64::MAX), (u64::MAX - 1, 0)];
    has_lines(&links, u64::MAX, &[(0, 0), (1, 1)]);
}

#[test]
fn a_folder_that_holds_itself() {
    for (room, refusal) in [(64, 24), (1000, 24), (63, 17), (0, 17)] {
        refused(&[(1, 1)], 1, room, refusal);
    }
    ends_after(&[(1, 1)], 1, 32);
    has_lines(&[(1, 1)], 2, &[]);
}

/// 1 holds 2, which holds 7 and 1 again: in two steps down there are three lines.
#[test]
fn a_loop_through_two_folders() {
    let links = [(2, 1), (7, 2), (1, 2)];
    ends_after(&links, 1, 16 * 3);
    ends_after(&links, 2, 16 * 3);
    ends_after(&[(1, 9), (2, 1), (1, 2)], 9, 32);
    // What stands before the loop is listed before it, and takes room.
    ends_after(&[(5, 9), (6, 9), (1, 9), (1, 1)], 9, 2 + 32);
}

#[test]
fn a_chain_down_to_depth_31() {
    let all: Vec<Pair> = (0..32).map(|depth| (depth, depth)).collect();
    assert_eq!(all.last(), Some(&(31, 31)));
    has_lines(&chain(32), 1, &all);
    refused(&chain(33), 1, 64, 24);
    refused(&chain(33), 1, 63, 17);
    ends_after(&chain(33), 1, 32);
    ends_after(&chain(4096), 1, 32);
    // From the second folder on it is not too deep.
    let all: Vec<Pair> = (0..32).map(|depth| (depth, depth + 1)).collect();
    has_lines(&chain(33), 2, &all);
}

#[test]
fn a_link_once_for_each_path() {
    has_lines(
        &[(2, 1), (2, 1), (3, 2)],
        1,
        &[(0, 0), (1, 2), (0, 1), (1, 2)],
    );
    let diamond = [(2, 1), (3, 1), (4, 2), (4, 3), (5, 4)];
    let twice = [(0, 0), (1, 2), (2, 4), (0, 1), (1, 3), (2, 4)];
    has_lines(&diamond, 1, &twice);
}

#[test]
fn the_order_of_the_table() {
    has_lines(&[(3, 2), (2, 1)], 1, &[(0, 1), (1, 0)]);
    let links = [(9, 3), (3, 1), (8, 1), (7, 3), (2, 1)];
    has_lines(&links, 1, &[(0, 1), (1, 0), (1, 3), (0, 2), (0, 4)]);
}

/// All ways down from a folder, by the places of the links that they go along.
fn paths(links: &[Pair], root: u64) -> Vec<Vec<usize>> {
    let mut paths: Vec<Vec<usize>> = vec![vec![]];
    let mut seen = 0;
    while seen < paths.len() {
        let path = paths[seen].clone();
        let at = path.last().map_or(root, |&place| links[place].0);
        for place in (0..links.len()).filter(|&place| links[place].1 == at) {
            paths.push([&path[..], &[place]].concat());
        }
        seen += 1;
    }
    paths.sort();
    paths.split_off(1)
}

/// The lines are the ways down, in the order of a dictionary.
#[test]
fn random_tables_without_loops() {
    let mut numbers = Numbers(9);
    let mut most = 0;
    for _ in 0..300 {
        let links: Vec<Pair> = (0..numbers.below(12))
            .map(|_| {
                let parent = 1 + numbers.below(6);
                (parent + 1 + numbers.below(3), parent)
            })
            .collect();
        let paths = paths(&links, 1);
        let line = |path: &Vec<usize>| (path.len() as u64 - 1, *path.last().unwrap() as u64);
        let expected: Vec<Pair> = paths.iter().map(line).collect();
        has_lines(&links, 1, &expected);
        most = most.max(expected.len());
    }
    assert!(most > 12, "no table has more lines than links");
}

#[test]
fn as_many_lines_as_are_listed_at_most() {
    // 2 + 4 + .. + 2^15 lines, and some that hold nothing.
    let tree_of = |more: u64| {
        let more = (0..more).map(|child| (1000 + child, 1));
        volume(&doubled(15).into_iter().chain(more).collect::<Vec<_>>())
    };
    let bytes = tree_of(2);
    let tree = Volume::link_table(&bytes).unwrap().tree(1).unwrap();
    assert_eq!(tree.len(), Tree::MAX_LINES);
    assert_eq!(tree.map(|line| line.depth).max(), Some(14));
    let bytes = tree_of(3);
    let table = Volume::link_table(&bytes).unwrap();
    assert_eq!(table.tree(1).unwrap_err(), at_the_table(17));
    let tree = table.tree_within(1, Tree::MAX_LINES + 1).unwrap();
    assert_eq!(tree.len(), Tree::MAX_LINES + 1);
}

/// Of lines that nobody could wait for, no more are looked at than there is room for; and those that
/// are too deep come first.
#[test]
fn more_lines_than_any_room() {
    for (len, refusal) in [(32, 17), (33, 24), (2000, 24)] {
        let bytes = volume(&doubled(len));
        let table = Volume::link_table(&bytes).unwrap();
        assert_eq!(table.tree(1).unwrap_err(), at_the_table(refusal), "{len}");
    }
}

#[test]
fn names_are_parts_of_the_volume() {
    let long = "x".repeat(65_535);
    let names = ["", "pégel \"1\"\n", "/", &long];
    let links: Vec<Named> = (2..)
        .zip(names)
        .map(|(child, name)| (child, 1, name.as_bytes()))
        .collect();
    let bytes = of_named(&links);
    let tree = Volume::link_table(&bytes).unwrap().tree(1).unwrap();
    assert!(tree.clone().map(|line| line.name).eq(names));
    assert!(tree.clone().map(|line| line.child).eq(2..6));
    let within = bytes.as_ptr_range();
    assert!(tree
        .map(|line| line.name.as_ptr())
        .all(|name| within.contains(&name)));
}

#[test]
fn lines_come_one_after_the_other() {
    let bytes = volume(&SMALL);
    let mut tree = Volume::link_table(&bytes).unwrap().tree(1).unwrap();
    assert_eq!(tree.size_hint(), (3, Some(3)));
    assert_eq!(tree.next().map(|line| line.child), Some(2));
    let rest = tree.clone();
    assert_eq!(format!("{tree:?}"), "Tree { lines: 3, next: 1 }");
    assert_eq!((tree.by_ref().count(), tree.len()), (2, 0));
    assert_eq!((tree.next(), tree.next(), tree.len()), (None, None, 0));
    assert_eq!(rest.map(|line| line.child).collect::<Vec<_>>(), [3, 4]);
}

#[test]
fn bookmarks() {
    let (v, sound) = (small_volume(), volume(&SMALL));
    let at = |offset| Mark { offset, ..TABLE };
    for (bytes, offset, refusal) in [
        (&v, 80, 8),
        (&v, 104, 2),
        (&v, 105, 2),
        (&v, u64::MAX, 2),
        (&v, 79, 8),
        (&sound, 0, 8),
        (&sound, 79, 8),
        (&sound, 81, 8),
        (&sound, sound.len() as u64, 2),
        (&header(1), 80, 2),
        (&vec![], 80, 2),
    ] {
        for room in [0, 6, 7] {
            refused_at(bytes, at(offset), 1, room, refusal);
        }
    }
    let all = [(0, 0), (1, 1), (0, 2)];
    let answer = sys::Lines {
        lines: 3,
        ..Default::default()
    };
    let numbered = |number| Mark { number, ..TABLE };
    answers(&sound, numbered(u64::MAX - 1), 1, 6, answer, &all);
    for (bytes, refusal) in [(&sound, 9), (&v, 8), (&header(1), 2)] {
        refused_at(bytes, numbered(u64::MAX), 1, 6, refusal);
    }
    // A table has no time, and so none is too low for it.
    for (timed, last) in [(1, u64::MAX), (u64::MAX, 7), (0, 7)] {
        let mark = Mark {
            timed,
            last,
            ..TABLE
        };
        answers(&sound, mark, 1, 6, answer, &all);
    }
}
