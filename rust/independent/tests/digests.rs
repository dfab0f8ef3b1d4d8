//! SHA-256: published digests and those that the rules give, parts cut
//! anywhere, states that are made up, and the calls on lent bytes. What no
//! paper gives was worked out by another program.

mod common;

use common::textbook::{Textbook, MOST};
use common::*;
use independent::sha256;
use independent::sha256::{digest_bytes, feed_bytes, finish_bytes, start_bytes, State};

const EMPTY: &str = "e3b0c44298fc1c149afbf4c8996fb92427ae41e4649b934ca495991b7852b855";
const ABC: &str = "ba7816bf8f01cfea414140de5dae2223b00361a396177a9cb410ff61f20015ad";
const FULL: &str = "080acf35a507ac9849cfcba47dc2ad83e01b75663a516279c8b9d243b719643e";

/// The digest of the bytes as a whole, in hexadecimal.
fn digest(bytes: &[u8]) -> String {
    hex(&sha256(bytes).expect("a digest"))
}

/// The digest of a state.
fn finished(state: &State) -> String {
    hex(&state.finish().expect("a digest"))
}

/// A new state that was fed these parts.
fn fed(parts: &[&[u8]]) -> State {
    let mut state = State::new();
    for part in parts {
        assert_eq!(state.feed(part), 0);
    }
    state
}

/// A state made up of the first words and this number, with some first bytes
/// and others behind them.
fn made_up(words: [u32; 8], number: u64, first: &[u8], other: u8) -> State {
    let mut held = [other; 64];
    held[..first.len()].copy_from_slice(first);
    State {
        words,
        fed: number,
        held,
    }
}

#[test]
fn published_digests() {
    assert_eq!(digest(b""), EMPTY);
    assert_eq!(digest(b"abc"), ABC);
    assert_eq!(
        digest(b"abcdbcdecdefdefgefghfghighijhijkijkljklmklmnlmnomnopnopq"),
        "248d6a61d20638b8e5c026930c3e6039a33ce45964ff2167f6ecedd419db06c1"
    );
    assert_eq!(
        digest(&[b'a'; 1_000_000]),
        "cdc76e5c9914fb9281a1c7e284d73e67f1809a48a497200e046d39ccc7112cd0"
    );
}

/// Around the lengths where the padding takes one block more.
#[test]
fn lengths_around_a_block() {
    let expected = [
        (
            55,
            "9f4390f8d30c2dd92ec9f095b65e2b9ae9b0a925a5258e241c9f1e910f734318",
        ),
        (
            56,
            "b35439a4ac6f0948b6d6f9e3c6af0f5f590ce20f1bde7090ef7970686ec6738a",
        ),
        (
            63,
            "7d3e74a05d7db15bce4ad9ec0658ea98e3f06eeecf16b4c6fff2da457ddc2f34",
        ),
        (
            64,
            "ffe054fe7ae0cb6dc65c3af9b61d5209f439851db43d0ba5997337df154668eb",
        ),
        (
            65,
            "635361c48bb9eab14198e76ea8ab7f1a41685d6ad62aa9146d301d4f17eb0ae0",
        ),
    ];
    for (length, expected) in expected {
        let bytes = vec![b'a'; length];
        assert_eq!(digest(&bytes), expected);
        assert_eq!(finished(&fed(&[&bytes])), expected);
    }
}

#[test]
fn parts_of_abc() {
    assert_eq!(finished(&fed(&[])), EMPTY);
    assert_eq!(finished(&fed(&[b"", b""])), EMPTY);
    assert_eq!(finished(&fed(&[b"a", b"", b"b", b"c"])), ABC);
    assert_eq!(fed(&[b"a", b"", b"b", b"c"]), fed(&[b"abc"]));
}

/// One digest stands for those of all lengths from 0 to 200.
#[test]
fn digests_of_every_short_length() {
    let bytes = noise(8, 200);
    let all: Vec<u8> = (0..=200)
        .flat_map(|length| sha256(&bytes[..length]).expect("a digest"))
        .collect();
    assert_eq!(
        digest(&all),
        "06b05c213ad61e670b2eb8b2a6336ec38c1e8009f501e99d30db499dfa280aa0"
    );
    assert_eq!(
        digest(&noise(9, 100_000)),
        "fdca762c1ef8358b7ba8dfa5a5062b9109df791e8346995e12feb83fc7652652"
    );
}

/// Every length up to 200, cut into two parts at every place.
#[test]
fn every_cut() {
    let textbook = Textbook::new();
    let bytes = noise(8, 200);
    for length in 0..=200 {
        let whole = &bytes[..length];
        let (number, expected) = textbook.feed(&State::new(), whole);
        assert_eq!(number, 0);
        for cut in 0..=length {
            let (first, second) = whole.split_at(cut);
            assert_eq!(fed(&[first, second]), expected, "{length} cut at {cut}");
        }
        let answer = expected.finish();
        assert_eq!(answer, sha256(whole));
        assert_eq!(answer, textbook.finish(&expected));
    }
}

/// A long text in parts of one length each, some longer than a block.
#[test]
fn parts_of_one_length() {
    let bytes = noise(9, 100_000);
    let whole = fed(&[&bytes]);
    for length in [1, 3, 63, 64, 65, 127, 128, 129, 1_000, 99_999] {
        let parts: Vec<&[u8]> = bytes.chunks(length).collect();
        assert_eq!(fed(&parts), whole, "{length}");
    }
    assert_eq!(whole.finish(), sha256(&bytes));
}

/// The bytes of the last whole block stay where no others came.
#[test]
fn what_is_held() {
    let state = fed(&[&[b'a'; 64], b"bc"]);
    assert_eq!(state.fed, 66);
    assert_eq!(&state.held[..2], b"bc");
    assert_eq!(&state.held[2..], [b'a'; 62]);
    assert_eq!(fed(&[&[b'a'; 64]]).held, [b'a'; 64]);
    assert_eq!(fed(&[b"abc"]).held[3..], [0; 61]);
    let two = [noise(1, 64), noise(2, 64), b"xyz".to_vec()].concat();
    let state = fed(&[&two]);
    assert_eq!(&state.held[..3], b"xyz");
    assert_eq!(&state.held[3..], &noise(2, 64)[3..]);
}

#[test]
fn the_longest_input() {
    let zeros = vec![0; 16_777_217];
    let (most, one) = zeros.split_at(16_777_216);
    assert_eq!(digest(most), FULL);
    assert_eq!(sha256(&zeros), Err(1));
    let mut state = fed(&[&most[..99], &most[99..]]);
    let full = state.clone();
    assert_eq!(finished(&state), FULL);
    assert_eq!(state.feed(one), 1);
    assert_eq!(state.feed(b""), 0);
    assert_eq!(state, full);
    let mut state = State::new();
    assert_eq!(state.feed(&zeros), 1);
    assert_eq!(state, State::new());
    let mut out = [7; 40];
    assert_eq!(digest_bytes(&zeros, &mut out), 1);
    assert_eq!(out, [7; 40]);
    assert_eq!(digest_bytes(most, &mut out), 0);
    assert_eq!(hex(&out[..32]), FULL);
    assert_eq!(out[32..], [7; 8]);
}

#[test]
fn made_up_states_that_the_rules_name() {
    let start = State::new().words;
    for other in [0, 0x80, 0xFF] {
        assert_eq!(
            finished(&made_up([0; 8], 3, b"abc", other)),
            "47503433482e4df44ace424ff2c6bf2097c825ada75403e1bdb11d8eaec6ce4e"
        );
        assert_eq!(
            finished(&made_up(start, 67, b"abc", other)),
            "536d28c75fdaec1d7d2f545ca952ba8ced1e566ef099a9692a0d91c2c1ea337b"
        );
        assert_eq!(
            finished(&made_up(start, MOST, b"", other)),
            "c331d39a4721078ed3385a4d201d7780eb38cc2ca3146cffc03f1cc9e3e2d156"
        );
    }
    let counted: [u8; 64] = std::array::from_fn(|k| k as u8);
    assert_eq!(
        finished(&made_up([u32::MAX; 8], MOST - 1, &counted, 0)),
        "87ca3f970a5301104a496f544fd47917da199e7cbad98dab1f237af0b4bd7fd7"
    );
}

/// What a state answers to feeding a part, which on refusal leaves it as it
/// was, and to finishing.
fn answers(state: &State, part: &[u8]) -> (u64, Result<[u8; 32], u64>) {
    let mut after = state.clone();
    let number = after.feed(part);
    if number != 0 || part.is_empty() {
        assert_eq!(after, *state);
    }
    (number, state.finish())
}

#[test]
fn numbers_at_the_limit() {
    let with = |number| made_up(State::new().words, number, b"", 5);
    for number in [MOST + 1, MOST + 64, 1 << 32, 1 << 61, 1 << 63, TOP - 1, TOP] {
        for part in [&b""[..], b"a", &[b'a'; 200]] {
            assert_eq!(answers(&with(number), part), (1, Err(1)), "{number}");
        }
    }
    for before in 0..=130 {
        let state = with(MOST - before);
        let digest = state.finish();
        assert!(digest.is_ok());
        for length in 0..=131 {
            let number = u64::from(length > before);
            let part = vec![b'a'; length as usize];
            assert_eq!(answers(&state, &part), (number, digest), "{before}");
        }
    }
}

/// States with any words and bytes, at every remainder.
#[test]
fn made_up_states_are_taken_as_they_stand() {
    let textbook = Textbook::new();
    assert_eq!(textbook.start, State::new().words);
    for used in 0..64 {
        let bytes = noise(used + 1, 104);
        let mut state = State::from_bytes(&bytes).expect("enough bytes");
        state.fed = 64 * (state.fed % 1_000) + used;
        assert_eq!(state.finish(), textbook.finish(&state), "{used}");
        let part = noise(used + 100, 200);
        for length in 0..=200 {
            let (number, expected) = textbook.feed(&state, &part[..length]);
            let mut after = state.clone();
            assert_eq!(after.feed(&part[..length]), number);
            assert_eq!(after, expected, "{used} and {length}");
        }
    }
}

/// Of the bytes that are not in use none matters for the digest.
#[test]
fn unused_bytes_do_not_matter() {
    for used in 0..64u64 {
        let mut state = State::from_bytes(&noise(used + 1, 104)).expect("enough bytes");
        state.fed = 640 + used;
        let digest = state.finish();
        for at in 0..64 {
            let mut other = state.clone();
            other.held[at] ^= 0x10;
            assert_eq!(other.finish() == digest, at as u64 >= used);
        }
    }
}

#[test]
fn states_in_lent_bytes() {
    let state = State {
        words: [0x0403_0201, 0x0807_0605, 2, 3, 4, 5, 6, 0xFFFF_FFFE],
        fed: 0x1817_1615_1413_1211,
        held: std::array::from_fn(|k| 100 + k as u8),
    };
    let bytes = state.to_bytes();
    assert_eq!(bytes.len(), 104);
    assert_eq!(bytes[..9], [1, 2, 3, 4, 5, 6, 7, 8, 2]);
    assert_eq!(bytes[28..34], [0xFE, 0xFF, 0xFF, 0xFF, 0x11, 0x12]);
    assert_eq!(bytes[38..42], [0x17, 0x18, 100, 101]);
    assert_eq!(bytes[103], 163);
    assert_eq!(State::from_bytes(&bytes), Ok(state.clone()));
    let more = [&bytes[..], b"more"].concat();
    assert_eq!(State::from_bytes(&more), Ok(state));
    for length in 0..104 {
        assert_eq!(State::from_bytes(&bytes[..length]), Err(17));
    }
}

/// Each call on lent bytes, with room behind what it needs.
#[test]
fn lent_bytes_beyond_keep_their_values() {
    let mut state = [0xEE; 110];
    assert_eq!(start_bytes(&mut state), 0);
    assert_eq!(state[..104], State::new().to_bytes());
    for part in [&b"a"[..], b"", b"bc"] {
        assert_eq!(feed_bytes(&mut state, part), 0);
    }
    assert_eq!(state[..104], fed(&[b"abc"]).to_bytes());
    let before = state;
    let mut out = [0xEE; 40];
    assert_eq!(finish_bytes(&state, &mut out), 0);
    assert_eq!(hex(&out[..32]), ABC);
    assert_eq!(out[32..], [0xEE; 8]);
    assert_eq!(state, before);
    assert_eq!(state[104..], [0xEE; 6]);
    let mut out = [0xEE; 32];
    assert_eq!(digest_bytes(b"", &mut out), 0);
    assert_eq!(hex(&out), EMPTY);
}

/// Too little room for the state comes first, then a number that is too
/// large, then too little room for the digest.
#[test]
fn the_order_of_refusals() {
    let above = made_up([1; 8], MOST + 1, b"", 2).to_bytes();
    let sound = fed(&[b"abc"]).to_bytes();
    for length in 0..104 {
        let mut state = above[..length].to_vec();
        assert_eq!(start_bytes(&mut state), 17);
        assert_eq!(feed_bytes(&mut state, b"abc"), 17);
        assert_eq!(state, above[..length]);
        assert_eq!(finish_bytes(&state, &mut [0; 32]), 17);
    }
    let mut state = above;
    for part in [&b""[..], b"a"] {
        assert_eq!(feed_bytes(&mut state, part), 1);
        assert_eq!(state, above);
    }
    for room in 0..32 {
        let mut out = vec![7; room];
        assert_eq!(finish_bytes(&above, &mut out), 1);
        assert_eq!(finish_bytes(&sound, &mut out), 17);
        assert_eq!(finish_bytes(&above[..103], &mut out), 17);
        assert_eq!(digest_bytes(b"abc", &mut out), 17);
        assert_eq!(out, vec![7; room]);
    }
    let mut out = [7; 32];
    assert_eq!(finish_bytes(&above, &mut out), 1);
    assert_eq!(out, [7; 32]);
    let long = vec![0; MOST as usize + 1];
    assert_eq!(digest_bytes(&long, &mut []), 1);
    let mut state = sound;
    assert_eq!(feed_bytes(&mut state, &long), 1);
    assert_eq!(state, sound);
}

/// A state in lent bytes goes through the same values as one that is not.
#[test]
fn lent_bytes_follow_the_states() {
    let bytes = noise(3, 700);
    let mut lent = [0; 104];
    let mut state = State::new();
    assert_eq!(start_bytes(&mut lent), 0);
    let mut rest = &bytes[..];
    for length in (0..37).cycle() {
        let (part, behind) = rest.split_at(rest.len().min(length));
        assert_eq!(feed_bytes(&mut lent, part), 0);
        assert_eq!(state.feed(part), 0);
        assert_eq!(State::from_bytes(&lent).as_ref(), Ok(&state));
        rest = behind;
        if rest.is_empty() {
            break;
        }
    }
    assert_eq!(state.finish(), sha256(&bytes));
}
