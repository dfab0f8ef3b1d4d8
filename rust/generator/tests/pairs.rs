//! Pairs of volumes are answered as their making says, and all that can be
//! wrong with one occurs.

mod common;

use std::collections::BTreeMap;

use common::Found;
use generator::fault::OF_A_VOLUME;
use generator::image::LIMIT;
use generator::pair::{describe, edges, pair, Kind, Pair};
use independent::{check, read_header, sha256, Verdict};

const SEEDS: u64 = 6_000;

fn digest(bytes: &[u8]) -> [u8; 32] {
    sha256(bytes).expect("at most 16 MiB")
}

fn made(seed: u64) -> Pair {
    pair(seed, digest)
}

fn is_accepted(volume: &[u8]) -> bool {
    matches!(check(volume), Verdict::Accepted { .. })
}

/// Fails if the making of the pair promised another answer.
fn compare(pair: &Pair) -> independent::Pair {
    let answer = independent::pair(&pair.first, &pair.second);
    if let Some(expected) = pair.expected {
        let expected = independent::Pair {
            refusal: expected.number,
            text: expected.fault.text,
            start: expected.fault.start,
            which: expected.which,
            offset: expected.offset,
        };
        assert_eq!(answer, expected, "{}", describe(pair));
    }
    let is_first = is_accepted(&pair.first);
    let is_second = is_accepted(&pair.second);
    let fits = match pair.kind {
        Kind::FirstRefused => !is_first && is_second,
        Kind::SecondRefused => is_first && !is_second,
        Kind::BothRefused => !is_first && !is_second,
        Kind::Damaged => is_first || is_second,
        _ => is_first && is_second,
    };
    assert!(fits, "{}", describe(pair));
    answer
}

#[test]
fn a_seed_gives_one_pair() {
    for seed in 0..200 {
        assert_eq!(describe(&made(seed)), describe(&made(seed)));
    }
    assert_ne!(describe(&made(1)), describe(&made(2)));
}

/// What two sound headers have that a pair needs: the same ID, the number one
/// above, the digest as the hash.
fn agreement(pair: &Pair) -> Option<[bool; 3]> {
    let one = read_header(&pair.first).ok()?;
    let two = read_header(&pair.second).ok()?;
    Some([
        one.id == two.id,
        one.sequence.checked_add(1) == Some(two.sequence),
        digest(&pair.first) == *two.previous,
    ])
}

impl Found {
    fn pair(&mut self, pair: &Pair, answer: &independent::Pair) {
        let agreement = agreement(pair);
        let both = answer.which == 0;
        let names = ["only the ID", "only the number", "only the hash"];
        for (place, name) in names.into_iter().enumerate() {
            let mut expected = [true; 3];
            expected[place] = false;
            self.note(name, both && agreement == Some(expected));
        }
        self.note("nothing right", both && agreement == Some([false; 3]));
        let linked = agreement == Some([true; 3]);
        self.note("accepted", answer.refusal == 0);
        self.note("refused but linked, first", answer.which == 1 && linked);
        self.note("refused but linked, second", answer.which == 2 && linked);
        self.note("refused and not linked", !both && !linked);
        self.note(
            "a text of the first",
            answer.refusal == 10 && answer.which == 1,
        );
        self.note(
            "a text of the second",
            answer.refusal == 10 && answer.which == 2,
        );
        let inside = answer.start > 0 && answer.text > 0;
        self.note("a later text, inside", inside);
        if pair.kind == Kind::Damaged {
            self.note("damaged and accepted", answer.refusal == 0);
            self.note("damaged and not next", answer.refusal == 23);
            self.note("damaged, first refused", answer.which == 1);
            self.note("damaged, second refused", answer.which == 2);
        }
        if let (Ok(one), Ok(two)) = (read_header(&pair.first), read_header(&pair.second)) {
            self.numbers(one.sequence, two.sequence, answer.refusal);
            let zeros = two.sequence > 0 && *two.previous == [0; 32];
            self.note("a hash of zeros", zeros);
            let older = two.sequence > 0 && one.previous == two.previous;
            self.note("the first one's hash", older);
        }
    }

    fn numbers(&mut self, first: u64, second: u64, refusal: u64) {
        let step = i128::from(second) - i128::from(first);
        let is_accepted = refusal == 0;
        self.note("accepted after 0", is_accepted && first == 0);
        self.note("accepted after another", is_accepted && first > 0);
        self.note("accepted at the top", is_accepted && second == u64::MAX);
        self.note("the same number", refusal == 23 && step == 0);
        self.note("two volumes 0", refusal == 23 && first == 0 && second == 0);
        self.note("two above", refusal == 23 && step == 2);
        self.note("one below", refusal == 23 && step == -1);
        let wrapped = first == u64::MAX && second == 0;
        self.note("from the highest to 0", refusal == 23 && wrapped);
        self.note("from the highest", refusal == 23 && first == u64::MAX);
    }
}

#[test]
fn pairs_are_as_made() {
    let mut found = Found::default();
    let mut kinds = BTreeMap::new();
    // By volume, how often each number is given.
    let mut numbers = [[0; 24]; 3];
    for seed in 0..SEEDS {
        let pair = made(seed);
        let answer = compare(&pair);
        if pair.first.len() <= LIMIT {
            found.pair(&pair, &answer);
        }
        *kinds.entry(pair.kind).or_insert(0) += 1;
        numbers[answer.which as usize][answer.refusal as usize] += 1;
    }
    println!("{kinds:?}\n{numbers:?}");
    assert!(Kind::ALL.iter().all(|kind| kinds[kind] > 100), "{kinds:?}");
    for number in OF_A_VOLUME {
        assert!(numbers[1][number as usize] > 0, "{number} of the first");
        assert!(numbers[2][number as usize] > 0, "{number} of the second");
    }
    found.at_least(20);
}

#[test]
fn edges_are_as_made() {
    let list = edges(digest);
    for pair in &list {
        compare(pair);
    }
    let first = &list[0];
    assert_eq!((first.first.len(), first.second.len()), (104, 93));
    assert_eq!(digest(&first.first)[..4], [0x96, 0xDD, 0x04, 0xEA]);
    let kinds: BTreeMap<Kind, usize> = list.iter().fold(BTreeMap::new(), |mut kinds, pair| {
        *kinds.entry(pair.kind).or_insert(0) += 1;
        kinds
    });
    assert_eq!((kinds[&Kind::Hash], kinds[&Kind::Foreign]), (32, 16));
    assert!(list.iter().any(|pair| pair.second.len() == LIMIT));
}
