//! Trees at the edges of depth, of room and of what a table may be, each with
//! its answer written down.

use super::{End, Expected, Kind, Listing, Tree};
use crate::image::{self, LIMIT};
use crate::texts::Fault;
use crate::Mark;

const TOP: u64 = u64::MAX;

/// A tree with its answers.
#[derive(Clone, Debug)]
pub struct Edge {
    /// What it is, for reports.
    pub name: String,
    pub tree: Tree,
}

/// Every edge once, one of 16 MiB included.
pub fn edges() -> Vec<Edge> {
    [
        small(),
        chains(),
        loops(),
        diamonds(),
        full(),
        bookmarks(),
        elsewhere(),
        refused_tables(),
    ]
    .concat()
}

/// Links with the root 1 at 80 in volume 1, and their listing.
fn listed(
    name: impl Into<String>,
    kind: Kind,
    links: &[(u64, u64)],
    lines: Vec<[u64; 2]>,
    end: End,
) -> Edge {
    let volume = [header(1), table(links)].concat();
    let expected = Expected::Listing(Listing { lines, end });
    edge(name, kind, volume, 1, expected)
}

/// A tree with a table at 80, and rooms around what its lines need.
fn edge(
    name: impl Into<String>,
    kind: Kind,
    volume: Vec<u8>,
    root: u64,
    expected: Expected,
) -> Edge {
    let lines = match &expected {
        Expected::Listing(listing) => listing.lines.len(),
        _ => 0,
    };
    let all = 2 * lines;
    let mut rooms = vec![0, 1, 62, 63, 64, 65, all, all + 1, all + 2, 1_000, 9_000];
    rooms.extend([1, 2, 3].map(|less: usize| all.saturating_sub(less)));
    rooms.sort_unstable();
    rooms.dedup();
    let tree = Tree {
        seed: 0,
        kind,
        volume,
        mark: mark(80),
        root,
        rooms,
        expected,
    };
    let name = name.into();
    Edge { name, tree }
}

fn mark(offset: u64) -> Mark {
    Mark {
        offset,
        due: true,
        last: None,
        number: 0,
    }
}

fn refused(number: u64) -> Expected {
    let fault = Fault::default();
    Expected::Refused { number, fault }
}

fn header(sequence: u64) -> Vec<u8> {
    let previous = [u8::from(sequence > 0); 32];
    image::header(sequence, &[0; 16], &previous)
}

/// The bytes of these links, under names that all differ.
fn bytes(links: &[(u64, u64)]) -> Vec<u8> {
    let link = |(place, &(child, parent)): (usize, &(u64, u64))| {
        image::table_link(child, parent, format!("{place}").as_bytes())
    };
    let list: Vec<Vec<u8>> = links.iter().enumerate().map(link).collect();
    list.concat()
}

fn table(links: &[(u64, u64)]) -> Vec<u8> {
    image::table(links.len() as u64, &bytes(links))
}

const NESTED: [(u64, u64); 3] = [(2, 1), (3, 2), (4, 1)];

fn small() -> Vec<Edge> {
    let nested = |root, lines: Vec<[u64; 2]>| {
        let name = format!("a folder in a folder, from {root}");
        let mut edge = listed(name, Kind::Few, &NESTED, lines, End::Whole);
        edge.tree.root = root;
        edge
    };
    let whole = |name: &str, links: &[(u64, u64)], lines: Vec<[u64; 2]>| {
        listed(name, Kind::Few, links, lines, End::Whole)
    };
    vec![
        nested(1, vec![[0, 0], [1, 1], [0, 2]]),
        nested(2, vec![[0, 1]]),
        nested(9, vec![]),
        whole(
            "a folder under two names",
            &[(2, 1), (2, 1), (3, 2)],
            vec![[0, 0], [1, 2], [0, 1], [1, 2]],
        ),
        whole("a parent later", &[(3, 2), (2, 1)], vec![[0, 1], [1, 0]]),
        // The low halves of all numbers are the same.
        whole(
            "high halves",
            &[(1 << 32 | 1, 1), (1 << 33 | 1, 1 << 32 | 1)],
            vec![[0, 0], [1, 1]],
        ),
        listed("no links", Kind::Empty, &[], vec![], End::Whole),
    ]
}

/// Each link holds the next.
fn chain(length: u64) -> Vec<(u64, u64)> {
    (1..=length).map(|k| (k + 1, k)).collect()
}

/// One line at each depth, and the link at its place.
fn steps(length: u64) -> Vec<[u64; 2]> {
    (0..length).map(|k| [k, k]).collect()
}

fn chains() -> Vec<Edge> {
    let of_length = |length: u64| {
        let (lines, end) = match length {
            0..=32 => (steps(length), End::Whole),
            _ => (steps(32), End::TooDeep),
        };
        let name = format!("a chain of {length}");
        listed(name, Kind::Chain, &chain(length), lines, end)
    };
    let mut list: Vec<Edge> = [1, 30, 31, 32, 33, 34, 4_096].map(of_length).into();
    // One more at the last depth, before the folder that is too deep.
    let mut links = chain(31);
    links.extend([(99, 32), (33, 32), (34, 33)]);
    let mut lines = steps(32);
    lines.push([31, 32]);
    let name = "a chain of 33 with a link before its last but one";
    list.push(listed(name, Kind::Chain, &links, lines, End::TooDeep));
    list
}

fn loops() -> Vec<Edge> {
    let own = |links: &[(u64, u64)], lines, name: &str| {
        listed(name, Kind::Loop, links, lines, End::TooDeep)
    };
    let first = |place| (0..32).map(|k| [k, place]).collect::<Vec<_>>();
    let both = (0..32).flat_map(|k| [[k, 0], [k, 1]]).collect();
    let two = (0..32).map(|k| [k, k % 2]).collect();
    vec![
        own(&[(1, 1)], first(0), "a link to its own folder"),
        own(&[(1, 1), (2, 1)], first(0), "and another link behind it"),
        own(&[(2, 1), (1, 1)], both, "and another link before it"),
        own(&[(2, 1), (1, 2)], two, "a loop of two"),
    ]
}

/// The lines of so many levels of two links each: after each line all that
/// stands below it.
fn doubled(levels: u64, depth: u64) -> Vec<[u64; 2]> {
    if depth == levels {
        return Vec::new();
    }
    let below = doubled(levels, depth + 1);
    let line = |place| [vec![[depth, place]], below.clone()].concat();
    [line(2 * depth), line(2 * depth + 1)].concat()
}

fn diamonds() -> Vec<Edge> {
    let links = |levels: u64| -> Vec<(u64, u64)> {
        let level = |k| [(k + 1, k); 2];
        (1..=levels).flat_map(level).collect()
    };
    let whole = |levels| {
        let lines = doubled(levels, 0);
        assert_eq!(lines.len(), (2 << levels) - 2);
        let name = format!("two links at each of {levels} levels");
        listed(name, Kind::Diamond, &links(levels), lines, End::Whole)
    };
    let mut list: Vec<Edge> = (1..=11).map(whole).collect();
    // With 32 levels there are 2^33 lines, of which the first go straight
    // down; the last level then has its second line.
    let mut lines: Vec<[u64; 2]> = (0..32).map(|k| [k, 2 * k]).collect();
    let deep = listed(
        "two links at each of 33 levels",
        Kind::Diamond,
        &links(33),
        lines.clone(),
        End::TooDeep,
    );
    lines.push([31, 63]);
    let mut long = listed(
        "two links at each of 32 levels",
        Kind::Diamond,
        &links(32),
        lines,
        End::More,
    );
    long.tree.rooms.retain(|&room| room < 66);
    list.extend([deep, long]);
    list
}

fn full() -> Vec<Edge> {
    let one_folder: Vec<(u64, u64)> = (0..4_096).map(|k| (k + 2, 1)).collect();
    let lines = (0..4_096).map(|k| [0, k]).collect();
    let name = "4,096 links in one folder";
    vec![listed(name, Kind::Full, &one_folder, lines, End::Whole)]
}

/// Bookmarks at a sound table.
fn bookmarks() -> Vec<Edge> {
    let with = |name: &str, mark: Mark, expected: Option<Expected>| {
        let mut edge = small().remove(0);
        edge.name = name.into();
        edge.tree.mark = mark;
        if let Some(expected) = expected {
            edge.tree.kind = Kind::Number;
            edge.tree.expected = expected;
        }
        edge
    };
    let not_due = Mark {
        due: false,
        ..mark(80)
    };
    let timed = Mark {
        last: Some(TOP),
        ..not_due
    };
    let numbered = |number| Mark { number, ..mark(80) };
    vec![
        with("no table said to be due", not_due, None),
        with("a last time", timed, None),
        with("the last number but one", numbered(TOP - 1), None),
        with("the last number", numbered(TOP), Some(refused(9))),
    ]
}

/// Where no table stands.
fn elsewhere() -> Vec<Edge> {
    let sample = [header(0), image::data(7, b"1,5")].concat();
    let one = [header(1), table(&NESTED)].concat();
    let end = one.len() as u64;
    let rows = [
        ("data", Kind::NoTable, &sample, 80, 8),
        ("the end of the sample", Kind::Beyond, &sample, 104, 2),
        ("beyond that", Kind::Beyond, &sample, 105, 2),
        ("the end behind a table", Kind::Beyond, &one, end, 2),
        ("2^64 - 1", Kind::Beyond, &one, TOP, 2),
        ("79", Kind::Below, &one, 79, 8),
        ("0", Kind::Below, &one, 0, 8),
    ];
    let row = |(name, kind, volume, offset, number): (&str, Kind, &Vec<u8>, u64, u64)| {
        let mut edge = edge(name, kind, volume.clone(), 1, refused(number));
        edge.tree.mark = mark(offset);
        edge
    };
    let mut list: Vec<Edge> = rows.into_iter().map(row).collect();
    for id in [0, 9, 255] {
        let volume = [header(1), vec![id]].concat();
        let name = format!("a byte {id}");
        list.push(edge(name, Kind::NoTable, volume, 1, refused(7)));
    }
    list
}

fn refused_tables() -> Vec<Edge> {
    let in_volume = |name: &str, kind, table: Vec<u8>, expected| {
        edge(name, kind, [header(1), table].concat(), 1, expected)
    };
    let sound = table(&NESTED);
    let mut wrong = sound.clone();
    wrong[9] ^= 1;
    let mut long = [header(1), sound.clone()].concat();
    long.resize(LIMIT + 1, 0);
    let same = image::table_link(2, 1, b"a");
    let twice = image::table(2, &[&same[..], &image::table_link(3, 1, b"a")].concat());
    let bad = [same, image::table_link(3, 1, b"ab\xff")].concat();
    let fault = Fault { text: 1, start: 2 };
    let at_fault = Expected::Refused { number: 10, fault };
    let many: Vec<(u64, u64)> = (0..4_097).map(|k| (k + 2, 1)).collect();
    let mut list = vec![
        in_volume("a wrong byte", Kind::Checksum, wrong, refused(5)),
        in_volume("a link twice", Kind::Twice, twice, refused(13)),
        in_volume("a name", Kind::Name, image::table(2, &bad), at_fault),
        in_volume("4,097 links", Kind::TooMany, table(&many), refused(9)),
        edge("a byte too many", Kind::TooLong, long, 1, refused(1)),
    ];
    for length in 0..sound.len() {
        let name = format!("{length} bytes of a table");
        let cut = sound[..length].to_vec();
        list.push(in_volume(&name, Kind::Cut, cut, refused(2)));
    }
    list
}
