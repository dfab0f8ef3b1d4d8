//! Blocks are counted from 0 on, and made-up bookmarks often stand where one
//! block more is the last that can be counted, or cannot.

mod common;

use common::{bookmark, number, Found, KINDS};
use generator::number::FULL;
use generator::{case, describe, edge, edges, Case};
use independent::{check, read, read_header, Block, Bookmark, Reading, Refusal, Verdict};

const SEEDS: u64 = 3_000;

type Answer<'a> = Result<Reading<'a>, Refusal>;

/// What a reading with number 0 says of the same with another number: only
/// the numbers change, and a block that cannot be counted is refused.
fn renumbered(free: Answer<'_>, number: u64) -> Answer<'_> {
    let Ok(Reading::Block(block, next)) = free else {
        return free;
    };
    let after = number.checked_add(1).ok_or(Refusal::of(9))?;
    let block = Block { number, ..block };
    Ok(Reading::Block(block, next.numbered(after)))
}

/// What is told before the largest number, by itself.
const BEFORE: [(&str, u64); 11] = [
    ("1 first", 1),
    ("2 first", 2),
    ("5 first", 5),
    ("7 first", 7),
    ("8 first", 8),
    ("9 of a limit first", 9),
    ("10 first", 10),
    ("11 first", 11),
    ("12 first", 12),
    ("13 first", 13),
    ("14 first", 14),
];

impl Found {
    /// Notes numbers that no reading gives. A block has 13 bytes or more.
    fn made_up(&mut self, mark: Bookmark) {
        let most = mark.offset.saturating_sub(80) / 13;
        self.note("0 behind a block", mark.number == 0 && most > 0);
        let is_small = mark.number > most && mark.number < 20;
        self.note("a small number that is too large", is_small);
    }

    /// Notes what a reading at the largest number would be if blocks could be
    /// counted there.
    fn full(&mut self, volume: &[u8], mark: Bookmark, free: Answer<'_>) {
        self.note("the end", free == Ok(Reading::End));
        let told = number(&free);
        for (name, number) in BEFORE {
            self.note(name, told == number);
        }
        let (below, beyond) = (mark.offset < 80, mark.offset > volume.len() as u64);
        self.note("8 below the header", told == 8 && below);
        self.note("8 with a table due", told == 8 && !below && mark.due);
        self.note("8 with none due", told == 8 && !below && !mark.due);
        self.note("2 beyond the end", told == 2 && beyond);
        for (place, name) in KINDS.into_iter().enumerate() {
            let is_kind = |block: &Block<'_>| usize::from(block.id) == place + 1;
            let is_so = matches!(free, Ok(Reading::Block(block, _)) if is_kind(&block));
            self.note(name, is_so);
        }
    }

    /// Notes what comes after the last block that can be counted.
    fn last(&mut self, volume: &[u8], next: Bookmark) {
        let free = read(volume, next.numbered(0));
        self.note("the last block", true);
        self.note("the end behind it", free == Ok(Reading::End));
        let is_block = matches!(free, Ok(Reading::Block(..)));
        self.note("a block behind it", is_block);
    }

    /// Reads by each bookmark of a case, and on from there.
    fn case(&mut self, case: &Case) {
        let volume = &case.volume;
        for mark in case.bookmarks.iter().map(bookmark) {
            let free = read(volume, mark.numbered(0));
            let answer = read(volume, mark);
            let told = renumbered(free, mark.number);
            assert_eq!(answer, told, "{mark:?}\n{}", describe(case));
            self.made_up(mark);
            if mark.number == FULL {
                self.full(volume, mark, free);
            }
            let Ok(Reading::Block(_, next)) = answer else {
                continue;
            };
            let behind = read(volume, next);
            let told = renumbered(read(volume, next.numbered(0)), next.number);
            assert_eq!(behind, told, "{next:?}\n{}", describe(case));
            if next.number == FULL {
                self.last(volume, next);
            }
        }
    }
}

#[test]
fn bookmarks_stand_at_the_last_numbers() {
    let mut found = Found::default();
    for seed in 0..SEEDS {
        found.case(&case(seed));
    }
    // Few volumes are too long.
    assert!(found.0.remove("1 first") > Some(0));
    found.at_least(15);
    for often in ["the end", "2 first", "5 first", "8 first", "14 first"] {
        assert!(found.0[often] > 50, "{often}");
    }
}

/// The sample volume is read by every bookmark that the rules give answers for.
#[test]
fn edges_have_the_sample_at_the_last_numbers() {
    let mut found = Found::default();
    for mut case in edges() {
        case.bookmarks = edge::bookmarks(case.seed);
        found.case(&case);
    }
    let rows = [
        "data",
        "the end",
        "the last block",
        "the end behind it",
        "14 first",
        "5 first",
        "8 below the header",
        "8 with a table due",
        "2 beyond the end",
    ];
    for row in rows {
        assert!(found.0[row] > 0, "{row}");
    }
}

#[test]
fn blocks_are_counted_from_0_on() {
    let (mut blocks, mut tables) = (0, 0);
    for seed in 0..SEEDS {
        let case = case(seed);
        let Verdict::Accepted {
            blocks: told, end, ..
        } = check(&case.volume)
        else {
            continue;
        };
        let mut mark = read_header(&case.volume).expect("a header").next;
        assert_eq!(mark.number, 0);
        let mut count = 0;
        while let Ok(Reading::Block(block, next)) = read(&case.volume, mark) {
            let numbers = (block.number, next.number);
            assert_eq!(numbers, (count, count + 1), "{}", describe(&case));
            tables += u64::from(mark.due);
            count += 1;
            mark = next;
        }
        assert_eq!((told, end), (count, mark), "{}", describe(&case));
        blocks += count;
    }
    println!("{blocks} blocks, {tables} of them tables");
    assert!(blocks > 3_000 && tables > 300);
}
