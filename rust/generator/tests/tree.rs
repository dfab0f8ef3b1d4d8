//! Trees are listed as their making says, and all that can be told of one
//! occurs, with as much room as is needed and with a little less or more.

mod common;

use std::collections::{BTreeMap, BTreeSet};

use common::{bookmark, Found};
use generator::texts::Fault;
use generator::tree::{describe, edges, tree, Answer, End, Expected, Kind, Listing, Tree};
use independent::{Refusal, LINK_LIMIT};

const SEEDS: u64 = 12_000;

/// The lines that are stored in so much room; nothing else may be.
fn listed(tree: &Tree, room: usize) -> Result<Vec<[u64; 2]>, Refusal> {
    let before: Vec<u64> = (0..room as u64).map(|k| k ^ 0x5555_5555).collect();
    let mut out = before.clone();
    let mark = bookmark(&tree.mark);
    let told = independent::tree(&tree.volume, mark, tree.root, &mut out);
    let filled = told.map_or(0, |lines| 2 * lines as usize);
    assert_eq!(out[filled..], before[filled..], "{}", describe(tree));
    told.map(|_| out[..filled].as_chunks().0.to_vec())
}

/// Fails if the making promised another answer.
fn compare(tree: &Tree, room: usize) -> Result<Vec<[u64; 2]>, Refusal> {
    let told = listed(tree, room);
    let expected = match tree.answer(room) {
        Some(Answer::Lines(lines)) => Ok(lines.to_vec()),
        Some(Answer::Refused { number, fault }) => Err(Refusal {
            number,
            text: fault.text,
            start: fault.start,
        }),
        None => {
            assert_eq!(tree.expected, Expected::Unknown, "{}", describe(tree));
            return told;
        }
    };
    assert_eq!(told, expected, "room {room} for {}", describe(tree));
    told
}

#[test]
fn a_seed_gives_one_tree() {
    for seed in 0..300 {
        assert_eq!(describe(&tree(seed)), describe(&tree(seed)));
    }
    assert_ne!(describe(&tree(1)), describe(&tree(2)));
}

/// How many links a table states.
fn stated(tree: &Tree) -> u64 {
    let at = tree.mark.offset as usize + 1;
    let field = &tree.volume[at..at + 8];
    u64::from_le_bytes(field.try_into().expect("eight bytes"))
}

impl Found {
    /// Notes what a sound table has.
    fn listing(&mut self, tree: &Tree, listing: &Listing) {
        let lines = &listing.lines;
        let whole = listing.end == End::Whole;
        let places: BTreeSet<u64> = lines.iter().map(|line| line[1]).collect();
        let deepest = lines.iter().map(|line| line[0]).max();
        self.note("no line", whole && lines.is_empty());
        self.note("whole", whole);
        let too_deep = listing.end == End::TooDeep;
        self.note("too deep after 32", too_deep && lines.len() == 32);
        self.note("too deep later", too_deep && lines.len() > 32);
        self.note("more than are followed", listing.end == End::More);
        self.note("a link again", whole && places.len() < lines.len());
        let back = lines.windows(2).any(|two| two[0][1] > two[1][1]);
        self.note("whole, not in the order of the table", whole && back);
        self.note("whole, down to depth 31", whole && deepest == Some(31));
        self.note("whole, down to depth 30", whole && deepest == Some(30));
        let many = stated(tree);
        let some = whole && !lines.is_empty();
        self.note(
            "links that are not listed",
            some && (places.len() as u64) < many,
        );
        self.note("as many links as may be", many == LINK_LIMIT);
        self.note("one less", many == LINK_LIMIT - 1);
        self.note("more lines than links", whole && lines.len() as u64 > many);
    }

    fn bookmark(&mut self, tree: &Tree) {
        let mark = &tree.mark;
        self.note("at 80", mark.offset == 80);
        self.note("elsewhere", mark.offset > 80);
        self.note("said to be due", mark.due);
        self.note("not said to be due", !mark.due);
        self.note("a last time", mark.last.is_some());
        self.note("no last time", mark.last.is_none());
        self.note("the largest number but one", mark.number == u64::MAX - 1);
        let is_last = tree.volume.len() as u64 == mark.offset + 13;
        self.note("an empty table at the end", is_last && stated(tree) == 0);
    }

    /// Notes what is told in a room.
    fn told(&mut self, lines: usize, room: usize, number: u64) {
        let all = 2 * lines;
        self.note("just enough room", number == 0 && room == all && all > 0);
        self.note("a number to spare", number == 0 && room == all + 1);
        self.note("a line to spare", number == 0 && room >= all + 2);
        self.note("a number short", number == 17 && room + 1 == all);
        self.note("more than one short", number == 17 && room + 1 < all);
        self.note("no room at all", number == 17 && room == 0);
        self.note("no room needed", number == 0 && room == 0);
        self.note("a number is no room", number == 17 && room == 1);
        self.note("too deep, just there", number == 24 && room == all);
        self.note("too deep, a number more", number == 24 && room == all + 1);
        self.note("too deep, room for it", number == 24 && room >= all + 2);
    }
}

#[test]
fn trees_are_as_made() {
    let mut found = Found::default();
    let mut kinds = BTreeMap::new();
    let mut numbers = BTreeMap::new();
    for seed in 0..SEEDS {
        let tree = tree(seed);
        *kinds.entry(tree.kind).or_insert(0) += 1;
        assert!(tree.rooms.is_sorted() && tree.rooms.starts_with(&[0]));
        let is_listed = matches!(tree.expected, Expected::Listing(_));
        assert_eq!(is_listed, tree.kind.is_sound());
        if let Expected::Listing(listing) = &tree.expected {
            found.listing(&tree, listing);
            found.bookmark(&tree);
        }
        for &room in &tree.rooms {
            let told = compare(&tree, room);
            let number = told.err().map_or(0, |refusal| refusal.number);
            *numbers.entry((is_listed, number)).or_insert(0) += 1;
            if let Expected::Listing(listing) = &tree.expected {
                found.told(listing.lines.len(), room, number);
            }
        }
    }
    println!("{kinds:?}\n{numbers:?}");
    for kind in Kind::ALL {
        let least = match kind {
            Kind::TooLong => 2,
            Kind::Full => 40,
            _ => 100,
        };
        assert!(kinds[&kind] >= least, "{kind:?}");
    }
    for number in [0, 17, 24] {
        assert!(numbers[&(true, number)] > 5_000, "{number}");
    }
    for number in [1, 2, 5, 7, 8, 9, 10, 13] {
        assert!(numbers[&(false, number)] > 10, "{number}");
    }
    found.at_least(20);
}

/// What is told of tables that are not sound, and of damaged ones.
#[test]
fn all_faults_occur() {
    let mut found = Found::default();
    for seed in 0..SEEDS {
        let tree = tree(seed);
        if tree.kind.is_sound() {
            continue;
        }
        let room = *tree.rooms.last().expect("a room");
        let told = listed(&tree, room);
        let refusal = told.as_ref().err().copied().unwrap_or(Refusal::of(0));
        let full = tree.mark.number == u64::MAX;
        let end = tree.volume.len() as u64;
        match tree.kind {
            Kind::Name => {
                found.note("name: a later one", refusal.text > 0);
                found.note("name: inside", refusal.start > 0);
                found.note("name: the first byte", refusal.start == 0);
                found.note("name: the first of all", refusal.text == 0);
                found.note("name: the largest number", full);
            }
            Kind::Cut => {
                found.note("cut: nothing left", tree.mark.offset == end);
                found.note("cut: the number of links", end - tree.mark.offset < 9);
                found.note("cut: more", end - tree.mark.offset >= 9);
                found.note("cut: the largest number", full);
            }
            Kind::NoTable => {
                found.note("no table: another block", refusal.number == 8);
                found.note("no table: no block", refusal.number == 7);
            }
            Kind::Below => found.note("below: 79", tree.mark.offset == 79),
            Kind::Beyond => {
                found.note("beyond: at the end", tree.mark.offset == end);
                found.note("beyond: not due", tree.mark.offset == end && !tree.mark.due);
                found.note("beyond: behind it", tree.mark.offset > end);
            }
            Kind::Damaged => {
                found.note("damaged: listed", told.is_ok());
                found.note("damaged: 5", refusal.number == 5);
                found.note("damaged: 17 or 24", refusal.number > 16);
            }
            _ => found.note("largest number in another", full),
        }
    }
    found.at_least(10);
}

#[test]
fn edges_are_as_made() {
    let mut names = BTreeSet::new();
    let mut kinds = BTreeSet::new();
    let mut numbers = BTreeSet::new();
    for edge in edges() {
        let tree = &edge.tree;
        assert!(names.insert(edge.name.clone()), "{} twice", edge.name);
        kinds.insert(tree.kind);
        for &room in &tree.rooms {
            assert!(tree.answer(room).is_some(), "{} in {room}", edge.name);
            let told = compare(tree, room);
            numbers.insert(told.err().map_or(0, |refusal| refusal.number));
        }
    }
    let numbers: Vec<u64> = numbers.into_iter().collect();
    assert_eq!(numbers, [0, 1, 2, 5, 7, 8, 9, 10, 13, 17, 24]);
    for kind in Kind::ALL {
        let is_drawn = [Kind::Rising, Kind::DeepAndWide, Kind::Damaged].contains(&kind);
        assert_eq!(kinds.contains(&kind), !is_drawn, "{kind:?}");
    }
}

/// Refusals of a table say nothing of rooms, and those of rooms nothing of
/// texts.
#[test]
fn answers_are_whole() {
    for seed in 0..2_000 {
        let tree = tree(seed);
        for &room in &tree.rooms {
            match tree.answer(room) {
                Some(Answer::Lines(lines)) => assert!(2 * lines.len() <= room),
                Some(Answer::Refused { number, fault }) => {
                    assert!(number == 10 || fault == Fault::default());
                }
                None => assert_eq!(tree.kind, Kind::Damaged),
            }
        }
    }
}
