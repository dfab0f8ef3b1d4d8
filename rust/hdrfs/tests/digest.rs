//! SHA-256 digests: known ones, parts cut anywhere, states that were made up, and refusals.

#[path = "support/sha256.rs"]
mod reference;
mod support;

use std::io::{self, Write};

use hdrfs::{sys, Digest, Refusal, Volume, MAX_VOLUME_LEN};
use reference::{bytes, finished, first_words, sha256};
use support::Numbers;

const LIMIT: u64 = MAX_VOLUME_LEN as u64;

/// A state that was made up.
fn state(words: [u32; 8], fed: u64, held: &[u8; 64]) -> [u8; 104] {
    let mut state = Vec::new();
    for word in words {
        state.extend(word.to_le_bytes());
    }
    state.extend(fed.to_le_bytes());
    state.extend(held);
    state.try_into().unwrap()
}

/// Held bytes that begin with some, and go on with one.
fn held(first: &[u8], rest: u8) -> [u8; 64] {
    let mut held = [rest; 64];
    held[..first.len()].copy_from_slice(first);
    held
}

/// Bytes without a pattern.
fn message(len: usize) -> Vec<u8> {
    let mut numbers = Numbers(0x0DD_BA11_5EED);
    (0..len).map(|_| numbers.below(256) as u8).collect()
}

fn too_long() -> Refusal {
    Refusal::new(Refusal::VOLUME_TOO_LONG, 0)
}

#[test]
fn known_digests() {
    let letters = b"abcdbcdecdefdefgefghfghighijhijkijkljklmklmnlmnomnopnopq";
    for (message, digits) in [
        (
            &b""[..],
            "e3b0c44298fc1c149afbf4c8996fb92427ae41e4649b934ca495991b7852b855",
        ),
        (
            b"abc",
            "ba7816bf8f01cfea414140de5dae2223b00361a396177a9cb410ff61f20015ad",
        ),
        (
            letters,
            "248d6a61d20638b8e5c026930c3e6039a33ce45964ff2167f6ecedd419db06c1",
        ),
        (&[b'a'; 55], "9f4390f8"),
        (&[b'a'; 56], "b35439a4"),
        (&[b'a'; 63], "7d3e74a0"),
        (&[b'a'; 64], "ffe054fe"),
        (&[b'a'; 65], "635361c4"),
    ] {
        let digest = Volume::digest(message).unwrap();
        assert!(digest.starts_with(&bytes(digits)), "{digits}");
        assert_eq!(digest, sha256(message), "{digits}");
    }
}

#[test]
fn parts_of_a_known_message() {
    let mut digest = Digest::new();
    for part in [&b"a"[..], b"", b"b", b"c"] {
        digest.feed(part).unwrap();
    }
    assert_eq!(digest.finish(), Volume::digest(b"abc"));
    assert_eq!(digest.fed(), 3);
    // Finishing changes nothing, and more may follow.
    digest.feed(b"d").unwrap();
    assert_eq!(digest.finish(), Volume::digest(b"abcd"));
}

#[test]
fn every_cut_of_short_messages() {
    let message = message(200);
    for len in 0..=200 {
        let message = &message[..len];
        let whole = Volume::digest(message).unwrap();
        assert_eq!(whole, sha256(message), "{len}");
        let mut at_once = Digest::new();
        at_once.feed(message).unwrap();
        for cut in 0..=len {
            let mut digest = Digest::new();
            digest.feed(&message[..cut]).unwrap();
            digest.feed(&message[cut..]).unwrap();
            assert_eq!(digest.state(), at_once.state(), "{len} cut at {cut}");
            assert_eq!(digest.finish(), Ok(whole), "{len} cut at {cut}");
        }
    }
}

#[test]
fn many_parts_of_a_long_message() {
    let message = message(100_000);
    let whole = sha256(&message);
    let mut numbers = Numbers(0xC0FFEE);
    for longest in [2, 63, 64, 65, 200, 5_000] {
        let (mut digest, mut rest) = (Digest::new(), &message[..]);
        while !rest.is_empty() {
            let len = rest.len().min(numbers.below(longest) as usize);
            let (part, after) = rest.split_at(len);
            digest.feed(part).unwrap();
            rest = after;
        }
        assert_eq!(digest.finish(), Ok(whole), "parts below {longest}");
    }
}

#[test]
fn the_longest_message_and_one_more_byte() {
    let zeros = vec![0; MAX_VOLUME_LEN + 1];
    let longest = Volume::digest(&zeros[1..]).unwrap();
    assert!(longest.starts_with(&bytes("080acf35a507ac98")));
    assert_eq!(Volume::digest(&zeros), Err(too_long()));
    let mut digest = Digest::new();
    assert_eq!(digest.feed(&zeros), Err(too_long()));
    assert_eq!(digest.state(), Digest::new().state());
    digest.feed(&zeros[..1000]).unwrap();
    digest.feed(&zeros[1001..]).unwrap();
    let before = *digest.state();
    assert_eq!(digest.feed(b"\0"), Err(too_long()));
    assert_eq!(digest.feed(b""), Ok(()));
    assert_eq!((digest.state(), digest.fed()), (&before, LIMIT));
    assert_eq!(digest.finish(), Ok(longest));
}

#[test]
fn a_made_up_state_is_taken_as_it_is() {
    for rest in [0, b'c', 0xFF] {
        let zeros = Digest::from_state(state([0; 8], 3, &held(b"abc", rest)));
        let digits = "47503433482e4df44ace424ff2c6bf2097c825ada75403e1bdb11d8eaec6ce4e";
        assert_eq!(zeros.finish().unwrap().to_vec(), bytes(digits));
        let more = Digest::from_state(state(first_words(), 67, &held(b"abc", rest)));
        let digits = "536d28c75fdaec1d7d2f545ca952ba8ced1e566ef099a9692a0d91c2c1ea337b";
        assert_eq!(more.finish().unwrap().to_vec(), bytes(digits));
        assert_eq!(more.fed(), 67);
    }
}

#[test]
fn a_number_at_the_limit_and_above_it() {
    let full = state(first_words(), LIMIT, &held(b"", 7));
    let mut digest = Digest::from_state(full);
    assert_eq!(digest.feed(b""), Ok(()));
    assert_eq!(digest.feed(b"a"), Err(too_long()));
    assert_eq!(digest.state(), &full);
    let finished = digest.finish().unwrap();
    assert!(finished.starts_with(&bytes("c331d39a4721078e")));
    for fed in [LIMIT + 1, LIMIT + 64, 1 << 63, u64::MAX - 1, u64::MAX] {
        let over = state(first_words(), fed, &held(b"abc", 7));
        let mut digest = Digest::from_state(over);
        for part in [&b""[..], b"a", &[0; 200]] {
            assert_eq!(digest.feed(part), Err(too_long()), "{fed}");
        }
        assert_eq!(digest.finish(), Err(too_long()), "{fed}");
        assert_eq!((digest.state(), digest.fed()), (&over, fed));
    }
    let mut last = Digest::from_state(state(first_words(), LIMIT - 1, &held(b"", 7)));
    assert_eq!(last.feed(b"ab"), Err(too_long()));
    assert_eq!(last.feed(b"a"), Ok(()));
}

#[test]
fn held_bytes_keep_their_values_until_others_are_fed() {
    let mut digest = Digest::new();
    assert_eq!(digest.state(), &state(first_words(), 0, &[0; 64]));
    digest.feed(&[b'a'; 64]).unwrap();
    digest.feed(b"bc").unwrap();
    assert_eq!(digest.fed(), 66);
    assert_eq!(digest.state()[40..], held(b"bc", b'a'));
}

/// A part is fed as its bytes would be one by one, whatever the state was; and the words are those of
/// the standard.
#[test]
fn any_state_and_any_part() {
    let mut numbers = Numbers(0xFEED_5EED);
    let parts = message(300);
    for round in 0..400 {
        let words = std::array::from_fn(|_| numbers.below(1 << 32) as u32);
        let held: [u8; 64] = std::array::from_fn(|_| numbers.below(256) as u8);
        let fed = numbers.below(LIMIT - 300);
        let start = state(words, fed, &held);
        let part = &parts[..numbers.below(301) as usize];
        let mut at_once = Digest::from_state(start);
        at_once.feed(part).unwrap();
        let mut one_by_one = Digest::from_state(start);
        for byte in part {
            one_by_one.feed(&[*byte]).unwrap();
        }
        assert_eq!(at_once.state(), one_by_one.state(), "round {round}");
        let in_use = &held[..(fed % 64) as usize];
        let whole = finished(words, &[in_use, part].concat(), fed + part.len() as u64);
        assert_eq!(at_once.finish(), Ok(whole), "round {round}");
    }
}

#[test]
fn room_is_judged_in_order() {
    let over = state(first_words(), LIMIT + 1, &[7; 64]);
    let mut lent = over;
    assert_eq!(sys::sha256_start(&mut lent[..103]), 17);
    assert_eq!(sys::sha256_feed(&mut lent[..103], b"abc"), 17);
    assert_eq!(sys::sha256_feed(&mut lent, b"abc"), 1);
    assert_eq!(sys::sha256_feed(&mut [], b""), 17);
    assert_eq!(lent, over);
    let mut out = [9; 32];
    assert_eq!(sys::sha256_finish(&over[..103], &mut out[..31]), 17);
    assert_eq!(sys::sha256_finish(&over, &mut out[..31]), 1);
    assert_eq!(
        sys::sha256_finish(Digest::new().state(), &mut out[..31]),
        17
    );
    assert_eq!(sys::sha256(b"abc", &mut out[..31]), 17);
    assert_eq!(sys::sha256(&vec![0; MAX_VOLUME_LEN + 1], &mut out[..31]), 1);
    assert_eq!(out, [9; 32]);
}

#[test]
fn bytes_beyond_keep_their_values() {
    let mut lent = [9; 110];
    assert_eq!(sys::sha256_start(&mut lent), 0);
    assert_eq!(sys::sha256_feed(&mut lent, &[b'a'; 100]), 0);
    assert_eq!(lent[104..], [9; 6]);
    let before = lent;
    let mut out = [9; 40];
    assert_eq!(sys::sha256_finish(&lent, &mut out), 0);
    assert_eq!((&out[..32], lent), (&sha256(&[b'a'; 100])[..], before));
    assert_eq!(out[32..], [9; 8]);
    let mut out = [9; 40];
    assert_eq!(sys::sha256(b"abc", &mut out), 0);
    assert_eq!((&out[..32], &out[32..]), (&sha256(b"abc")[..], &[9; 8][..]));
}

#[test]
fn writing_is_feeding() {
    let message = message(100_000);
    let mut digest = Digest::default();
    assert_eq!(io::copy(&mut &message[..], &mut digest).unwrap(), 100_000);
    digest.write_all(b"and more").unwrap();
    digest.flush().unwrap();
    let whole = [&message[..], b"and more"].concat();
    assert_eq!(digest.finish(), Volume::digest(&whole));
}

#[test]
fn a_write_that_is_refused_writes_nothing() {
    let mut digest = Digest::new();
    digest.write_all(b"abc").unwrap();
    let before = *digest.state();
    let error = digest.write(&vec![0; MAX_VOLUME_LEN - 2]).unwrap_err();
    assert_eq!(error.kind(), io::ErrorKind::FileTooLarge);
    let refusal = error.get_ref().and_then(|inner| inner.downcast_ref());
    assert_eq!(refusal, Some(&too_long()));
    assert_eq!(error.to_string(), "refused 1 at 0: volume too long");
    assert_eq!(digest.state(), &before);
    let error = io::copy(&mut io::repeat(0), &mut digest).unwrap_err();
    assert!(error.get_ref().is_some_and(|inner| inner.is::<Refusal>()));
}

#[test]
fn a_copy_goes_its_own_way() {
    let mut digest = Digest::new();
    digest.feed(b"ab").unwrap();
    let copy = digest.clone();
    digest.feed(b"c").unwrap();
    assert_eq!(copy.finish(), Volume::digest(b"ab"));
    assert_eq!(format!("{digest:?}"), "Digest { fed: 3, .. }");
}
