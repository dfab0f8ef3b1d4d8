//! Bytes to digest have the lengths and cuts that matter, and made-up states
//! stand at all edges of their numbers.

mod common;

use common::Found;
use generator::digest::{describe, digest, edges, Digest, EDGES, START};
use generator::image::LIMIT;
use independent::sha256;
use independent::sha256::{feed_bytes, finish_bytes, State};

const SEEDS: u64 = 10_000;

/// The made-up state of a digest.
fn state(digest: &Digest) -> State {
    State {
        words: digest.state.words,
        fed: digest.state.fed,
        held: digest.state.held,
    }
}

#[test]
fn a_seed_gives_one_digest() {
    for seed in 0..200 {
        assert_eq!(describe(&digest(seed)), describe(&digest(seed)));
    }
    assert_ne!(describe(&digest(1)), describe(&digest(2)));
}

/// Fed in its parts to a new state, each gives the digest of the whole.
#[test]
fn parts_make_up_the_whole() {
    assert_eq!(START, State::new().words);
    for seed in 0..SEEDS {
        let digest = digest(seed);
        assert_eq!(digest.parts().count(), digest.cuts.len() + 1);
        assert!(digest.parts().flatten().eq(&digest.bytes));
        let mut state = State::new();
        let refusal = digest.parts().map(|part| state.feed(part)).max();
        let expected = sha256(&digest.bytes);
        assert_eq!(refusal, Some(expected.err().unwrap_or(0)));
        if expected.is_ok() {
            assert_eq!(state.finish(), expected, "{}", describe(&digest));
        }
    }
}

impl Found {
    /// Notes how long the bytes are and how they are cut.
    fn bytes(&mut self, digest: &Digest) {
        let length = digest.bytes.len();
        let lengths: Vec<usize> = digest.parts().map(<[u8]>::len).collect();
        let within = |range: std::ops::Range<usize>| range.contains(&length);
        self.note("up to a block", within(1..65));
        self.note("up to 300", within(65..300));
        self.note("up to 5,000", within(300..5_000));
        self.note("longer", length > 5_000);
        self.note("whole", lengths.len() == 1);
        self.note("two parts", lengths.len() == 2);
        self.note("many parts", lengths.len() > 20);
        self.note("a part of none", length > 0 && lengths.contains(&0));
        let bytes_one_by_one = lengths.len() > 2 && lengths.iter().all(|&part| part <= 1);
        self.note("parts of one byte", bytes_one_by_one);
        let blocks = |&part: &usize| part >= 64 && part % 64 == 0;
        self.note("a part of blocks", lengths.iter().any(blocks));
        self.note("a block that is begun", !lengths[0].is_multiple_of(64));
        let ends_block = digest.cuts.iter().any(|&cut| cut > 0 && cut % 64 == 0);
        self.note("a cut between blocks", ends_block);
        let fills = |pair: &[usize]| pair[0] < pair[1] && pair[1] == pair[0].next_multiple_of(64);
        let within_block = digest.cuts.windows(2).any(fills);
        self.note("a block just filled", within_block);
    }

    /// Notes what the made-up state is, and what its parts are answered with.
    fn state(&mut self, digest: &Digest) {
        let limit = LIMIT as u64;
        let number = digest.state.fed;
        self.note("number 0", number == 0);
        self.note("number up to 200", number <= 200);
        self.note("number that ends a block", number.is_multiple_of(64));
        self.note("number one below", number % 64 == 63);
        self.note("number one above", number % 64 == 1);
        self.note("number at the limit", number == limit);
        self.note("number one above the limit", number == limit + 1);
        self.note(
            "number below the limit",
            (limit - 200..limit).contains(&number),
        );
        self.note("number above the limit", number > limit);
        self.note("number near 2^64 - 1", number > u64::MAX - 200);
        let all = u128::from(number) + digest.bytes.len() as u128;
        let is_long = !digest.bytes.is_empty() && number < limit;
        self.note("all parts just fit", is_long && all == u128::from(limit));
        self.note("one byte too many", is_long && all == u128::from(limit) + 1);
        self.note("a sum of 2^64", all == 1 << 64);
        self.note(
            "a sum just above 2^64",
            all > 1 << 64 && all < (1 << 64) + 9,
        );
        self.note("first words", digest.state.words == START);
        self.note("words 0", digest.state.words == [0; 8]);
        let mut state = state(digest);
        let told: Vec<u64> = digest.parts().map(|part| state.feed(part)).collect();
        let count = |number: u64| told.iter().filter(|&&one| one == number).count();
        self.note("all parts taken", count(0) == told.len());
        self.note("no part taken", count(1) == told.len());
        self.note("some parts taken", count(0) > 0 && count(1) > 0);
        let later = told.windows(2).any(|pair| pair == [1, 0]);
        self.note("a part taken after a refusal", later);
        self.note("finished", state.finish().is_ok());
        self.note("not finished", state.finish().is_err());
    }

    /// Notes what calls on lent bytes answer.
    fn lent(&mut self, digest: &Digest) {
        let (mut lent, mut out) = (digest.lent.clone(), digest.out.clone());
        let bytes = digest.state.bytes();
        assert_eq!(bytes, state(digest).to_bytes());
        let both = lent.len().min(104);
        assert_eq!(lent[..both], bytes[..both]);
        self.note("103 bytes for the state", lent.len() == 103);
        self.note("fewer for the state", lent.len() < 103);
        self.note("more for the state", lent.len() > 104);
        self.note("31 bytes for the digest", out.len() == 31);
        self.note("fewer for the digest", out.len() < 31);
        self.note("more for the digest", out.len() > 32);
        let fed = feed_bytes(&mut lent, &digest.bytes);
        self.note("fed", fed == 0);
        self.note("1 in feeding", fed == 1);
        self.note("17 in feeding", fed == 17);
        let finished = finish_bytes(&lent, &mut out);
        self.note("finished in lent bytes", finished == 0);
        self.note("1 in finishing", finished == 1);
        let room = out.len() < 32;
        self.note("1 with too little room", finished == 1 && room);
        self.note("17 for the state", lent.len() < 104);
        self.note("17 for the digest", finished == 17 && lent.len() >= 104);
        assert_eq!(finished == 0, out != digest.out, "{}", describe(digest));
        assert_eq!(lent == digest.lent, fed != 0 || digest.bytes.is_empty());
    }
}

#[test]
fn everything_occurs() {
    let mut found = Found::default();
    let mut full = [0; 3];
    let mut edges = [0; EDGES.len()];
    for seed in 0..SEEDS {
        let digest = digest(seed);
        found.bytes(&digest);
        found.state(&digest);
        found.lent(&digest);
        let length = digest.bytes.len();
        if let Some(place) = EDGES.iter().position(|&edge| edge == length) {
            edges[place] += 1;
        }
        if length >= LIMIT - 1 {
            full[length + 1 - LIMIT] += 1;
        }
    }
    println!("16 MiB {full:?}, edges {edges:?}");
    assert!(full.iter().all(|&count| count > 0));
    assert!(edges.iter().all(|&count| count > 100));
    found.at_least(30);
}

#[test]
fn edges_have_every_length_and_number() {
    let list: Vec<Digest> = edges().filter(|one| one.bytes.len() < 1_000).collect();
    for length in 0..=200 {
        assert!(list.iter().any(|one| one.bytes.len() == length), "{length}");
    }
    let limit = LIMIT as u64;
    for number in [0, 63, 64, limit - 1, limit, limit + 1, 1 << 61, u64::MAX] {
        for length in [0, 1, 64] {
            let is_so = |one: &&Digest| one.state.fed == number && one.bytes.len() == length;
            let one = list.iter().find(is_so).expect("an edge");
            let refused = number > limit || number + length as u64 > limit;
            assert_eq!(state(one).feed(&one.bytes), u64::from(refused));
        }
    }
    let long = edges().filter(|one| one.bytes.len() > 1_000);
    let lengths: Vec<usize> = long.map(|one| one.bytes.len()).collect();
    assert_eq!(lengths, [LIMIT - 1, LIMIT, LIMIT + 1]);
}
