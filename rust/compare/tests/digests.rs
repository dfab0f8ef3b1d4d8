//! Digests from seeds, at all edges, and with every length of what is lent.
#![forbid(unsafe_code)]

use compare::digests::{self, parts, start, whole};
use compare::seeds::{sum, Seeds, USUAL};
use compare::tally::Digests;
use compare::Difference;
use generator::digest::{describe, digest, edges, Digest, State, START};
use generator::image::LIMIT;

/// One digest for so many of the seeds that are asked for.
const ONE_FOR: u64 = 4;

/// Compares one digest; what differs is told with its seed and bytes.
fn compare_digest(digest: &Digest, tally: &mut Digests) -> Result<(), String> {
    let compared = digests::compare(digest, tally);
    compared.map_err(|difference| format!("{difference}\n{}", describe(digest)))
}

/// The edges are counted too, since few seeds have more bytes than can be digested.
#[test]
fn digests_agree_and_reach_every_refusal() {
    let asked = Seeds::asked();
    let seeds = Seeds {
        count: asked.count.div_ceil(ONE_FOR),
        ..asked
    };
    let mut all = all_edges();
    let tallies = seeds.each(|seed, tally| compare_digest(&digest(seed), tally));
    all.add(&sum(tallies, Digests::add));
    println!("{} seeds from {}", seeds.count, seeds.first);
    println!("with the edges\n{}", all.table());
    if asked.count >= USUAL {
        assert_eq!(all.faults(), Vec::<String>::new());
    }
}

fn all_edges() -> Digests {
    let list: Vec<Digest> = edges().collect();
    for length in [0, 55, 56, 63, 64, 65, LIMIT - 1, LIMIT, LIMIT + 1] {
        let has_it = list.iter().any(|digest| digest.bytes.len() == length);
        assert!(has_it, "no edge of {length} bytes");
    }
    let places = Seeds {
        first: 0,
        count: list.len() as u64,
    };
    let tallies = places.each(|place, tally| compare_digest(&list[place as usize], tally));
    let sum = sum(tallies, Digests::add);
    println!("edges\n{}", sum.table());
    for numbers in [sum.feed, sum.finish, sum.fed, sum.finished] {
        assert!(numbers[0] > 1_000 && numbers[1] > 1_000, "{numbers:?}");
    }
    sum
}

/// States with numbers on both sides of those that are too high.
fn states() -> impl Iterator<Item = [u8; 104]> {
    let limit = LIMIT as u64;
    let numbers = [0, 3, 63, limit - 1, limit, limit + 1, u64::MAX];
    numbers.into_iter().map(|fed| {
        let state = State {
            words: START,
            fed,
            held: [b'h'; 64],
        };
        state.bytes()
    })
}

/// So many of some bytes, and then others.
fn resized(bytes: &[u8], length: usize) -> Vec<u8> {
    let mut bytes = bytes.to_vec();
    bytes.resize(length, b'r');
    bytes
}

/// Every length around 104 and 32, where more than one thing is wrong too.
#[test]
fn every_length_that_is_lent() {
    let mut tally = Digests::default();
    let compared = lengths(&mut tally);
    compared.unwrap_or_else(|difference| panic!("{difference}"));
    println!("{}", tally.table());
    assert_eq!(tally.faults(), Vec::<String>::new());
}

fn lengths(tally: &mut Digests) -> Result<(), Difference> {
    let too_long = vec![0; LIMIT + 1];
    for room in 0..=40 {
        for bytes in [&b""[..], b"abc", &[5; 64], &too_long] {
            let number = whole(bytes, &mut vec![b'r'; room])?;
            tally.sha256[number as usize] += 1;
        }
    }
    let fed = [&b"a"[..], b"", &[5; 64]];
    for state in states() {
        for length in (0..=8).chain(90..=112) {
            let lent = resized(&state, length);
            let number = start(&mut lent.clone())?;
            tally.start[number as usize] += 1;
            for room in 0..=40 {
                parts(&lent, &vec![b'r'; room], fed, tally)?;
            }
        }
    }
    Ok(())
}
