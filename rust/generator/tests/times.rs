//! Equal times occur where the rules allow them, and made-up bookmarks stand
//! around the times of blocks.

mod common;

use common::{bookmark, Found, KINDS};
use generator::archive::archive;
use generator::image::{INODE, TABLE};
use generator::{case, describe, time, Case, Expected};
use independent::{check, read, read_header, Block, Body, Bookmark, Reading, Refusal, Verdict};

const TOP: Option<u64> = Some(u64::MAX);

const SEEDS: u64 = 10_000;
const ARCHIVES: u64 = 3_000;

/// The blocks of an accepted volume that have a time.
fn timed(volume: &[u8]) -> Vec<Block<'_>> {
    let mut blocks = Vec::new();
    let mut mark = read_header(volume).expect("a header").next;
    while let Reading::Block(block, next) = read(volume, mark).expect("accepted blocks") {
        blocks.extend(block.time.map(|_| block));
        mark = next;
    }
    blocks
}

/// Whether the second is the inode that the first links.
fn is_linked(first: &Block<'_>, second: &Block<'_>) -> bool {
    match (first.body, second.body) {
        (Body::Link { child, .. }, Body::Inode { stat, .. }) => child == stat.inode,
        _ => false,
    }
}

/// Whether both are inode blocks of one number.
fn is_replaced(first: &Block<'_>, second: &Block<'_>) -> bool {
    match (first.body, second.body) {
        (Body::Inode { stat: first, .. }, Body::Inode { stat: second, .. }) => {
            first.inode == second.inode
        }
        _ => false,
    }
}

/// Whether the second takes away the link to the child that the first made.
fn is_unlinked(first: &Block<'_>, second: &Block<'_>) -> bool {
    match (first.body, second.body) {
        (Body::Link { child, .. }, Body::Unlink { child: gone, .. }) => child == gone,
        _ => false,
    }
}

impl Found {
    /// Notes of a sound volume what its equal times are.
    fn volume(&mut self, volume: &[u8]) {
        let blocks = timed(volume);
        let equal: Vec<&[Block<'_>]> = blocks
            .windows(2)
            .filter(|pair| pair[0].time == pair[1].time)
            .collect();
        let any = |is_so: fn(&Block<'_>, &Block<'_>) -> bool| {
            equal.iter().any(|pair| is_so(&pair[0], &pair[1]))
        };
        self.note("sound volumes", true);
        self.note("two blocks with times", blocks.len() >= 2);
        self.note("equal times", !equal.is_empty());
        self.note("times that rise", equal.len() + 1 < blocks.len());
        self.note("equal at 0", any(|first, _| first.time == Some(0)));
        self.note("equal at 2^64 - 1", any(|first, _| first.time == TOP));
        let mut rows = blocks.chunk_by(|first, second| first.time == second.time);
        self.note("four in a row", rows.any(|row| row.len() >= 4));
        self.note("a link and its inode", any(is_linked));
        self.note("an inode replaced", any(is_replaced));
        self.note("a link taken away", any(is_unlinked));
        // The second block's kind. The last has no time.
        for (kind, &name) in KINDS[..7].iter().enumerate() {
            let is_kind = |pair: &&[Block<'_>]| usize::from(pair[1].id - INODE) == kind;
            self.note(name, equal.iter().any(is_kind));
        }
    }
}

#[test]
fn sound_volumes_have_equal_times() {
    let mut found = Found::default();
    for seed in 0..SEEDS {
        let case = case(seed);
        if case.expected == Expected::Accepted {
            found.volume(&case.volume);
        }
    }
    // Inode numbers are of any size here, so these two come in archives alone.
    for rare in ["an inode replaced", "a link taken away"] {
        found.0.remove(rare);
    }
    found.at_least(50);
    assert!(2 * found.0["equal times"] > found.0["two blocks with times"]);
}

#[test]
fn archives_have_equal_times() {
    let mut found = Found::default();
    for seed in 0..ARCHIVES {
        let archive = archive(seed);
        if archive.kind.is_sound() {
            for volume in &archive.volumes {
                found.volume(volume);
            }
        }
    }
    found.at_least(50);
    assert!(2 * found.0["equal times"] > found.0["two blocks with times"]);
}

/// Reads by the bookmark and, where a table is read, the block behind it.
/// Gives the last answer and the bookmark that it was read by.
fn read_on(volume: &[u8], mark: Bookmark) -> (Result<Reading<'_>, Refusal>, Bookmark) {
    match read(volume, mark) {
        Ok(Reading::Block(block, next)) if block.id == TABLE => (read(volume, next), next),
        answer => (answer, mark),
    }
}

/// Notes how far the times of blocks are from the last times of a case's
/// bookmarks, which alone decide whether a block that is sound is read.
fn bookmarks(case: &Case, found: &mut Found) {
    for mark in &case.bookmarks {
        // The number has no part in this.
        let mark = bookmark(mark).numbered(0);
        let free = Bookmark { last: None, ..mark };
        let (Ok(Reading::Block(block, _)), _) = read_on(&case.volume, free) else {
            continue;
        };
        let (Some(last), Some(time)) = (mark.last, block.time) else {
            continue;
        };
        let (answer, by) = read_on(&case.volume, mark);
        let lower = (time < last).then_some(Refusal::of(14));
        let told = (answer.err(), by.last);
        assert_eq!(told, (lower, Some(last)), "{}", describe(case));
        let names = if mark.due {
            [
                "1 lower after a table",
                "equal after a table",
                "1 higher after a table",
            ]
        } else {
            ["1 lower", "equal", "1 higher"]
        };
        for (name, step) in names.into_iter().zip([-1, 0, 1]) {
            found.note(name, i128::from(time) - i128::from(last) == step);
        }
    }
}

#[test]
fn bookmarks_stand_around_the_times_of_blocks() {
    let mut found = Found::default();
    for seed in 0..SEEDS {
        bookmarks(&case(seed), &mut found);
    }
    found.at_least(50);
}

/// Where a volume is made to be refused with 14, a time is lower, mostly by 1.
#[test]
fn lower_times_are_made() {
    let (mut refused, mut by_one) = (0, 0);
    for seed in 0..SEEDS {
        let case = case(seed);
        let Expected::Refused {
            number: 14, offset, ..
        } = case.expected
        else {
            continue;
        };
        let time = time::of_block(&case.volume[offset as usize..]).expect("a time");
        let sound = check(&case.volume[..offset as usize]);
        let Verdict::Accepted { end, .. } = sound else {
            panic!("{sound:?}\n{}", describe(&case));
        };
        let last = end.last.expect("a time before");
        assert!(time < last, "{}", describe(&case));
        refused += 1;
        by_one += u64::from(time + 1 == last);
    }
    println!("{refused} refused, {by_one} of them lower by 1");
    assert!(by_one > 50 && refused - by_one > 50);
}
