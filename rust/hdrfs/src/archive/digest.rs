//! A digest that tells two pages apart, whatever the pages are.
//!
//! The words of a page are taken in pairs; to each word a word of the key is added, the two are
//! multiplied, and the products are added up. This is the universal hash NH with words of 64 bits
//! (Black, Halevi, Krawczyk, Krovetz and Rogaway, "UMAC", 1999): for any two different pages of one
//! length, at most one key in 2^64 gives them the same digest. The key is drawn once a process, and
//! no digest leaves the process, so that nobody can choose a page that goes by the key.

use std::collections::hash_map::RandomState;
use std::hash::BuildHasher;
use std::sync::LazyLock;

use super::pages::PAGE_LEN;

/// How many bytes are taken at a time.
const PAIR_LEN: usize = 16;

/// The key: two words for each pair of a page.
static KEY: LazyLock<Vec<[u64; 2]>> = LazyLock::new(|| {
    // A keyed hash of rising numbers, with a key that the system draws.
    let state = RandomState::new();
    let word = |number: usize| state.hash_one(number);
    let pairs = 0..PAGE_LEN / PAIR_LEN;
    pairs.map(|at| [word(2 * at), word(2 * at + 1)]).collect()
});

/// The digest of a page. Two pages are told apart only if they are equally long.
pub(super) fn digest(page: &[u8]) -> u128 {
    assert!(page.len() <= PAGE_LEN, "the key has no more words");
    let (pairs, rest) = page.as_chunks::<PAIR_LEN>();
    let mut sum = 0u128;
    for (pair, key) in pairs.iter().zip(KEY.iter()) {
        sum = sum.wrapping_add(product(pair, key));
    }
    if !rest.is_empty() {
        let mut last = [0; PAIR_LEN];
        last[..rest.len()].copy_from_slice(rest);
        sum = sum.wrapping_add(product(&last, &KEY[pairs.len()]));
    }
    sum
}

fn product(pair: &[u8; PAIR_LEN], key: &[u64; 2]) -> u128 {
    let both = u128::from_le_bytes(*pair);
    let low = key[0].wrapping_add(both as u64);
    let high = key[1].wrapping_add((both >> 64) as u64);
    u128::from(low) * u128::from(high)
}

#[cfg(test)]
mod tests {
    use super::*;

    #[test]
    fn a_page_has_one_digest() {
        let page: Vec<u8> = (0..PAGE_LEN).map(|at| (at * 7 / 3) as u8).collect();
        for len in [0, 1, 15, 16, 17, 1000, PAGE_LEN - 1, PAGE_LEN] {
            let copy = page[..len].to_vec();
            assert_eq!(digest(&page[..len]), digest(&copy));
        }
    }

    #[test]
    fn every_changed_bit_changes_the_digest() {
        for len in [1, 15, 16, 33, 1000] {
            let mut page: Vec<u8> = (0..len).map(|at| at as u8).collect();
            let before = digest(&page);
            for at in 0..len {
                for bit in 0..8 {
                    page[at] ^= 1 << bit;
                    assert_ne!(digest(&page), before, "bit {bit} of byte {at} of {len}");
                    page[at] ^= 1 << bit;
                }
            }
        }
    }

    #[test]
    fn the_last_byte_of_a_whole_page_counts() {
        let mut page = vec![0; PAGE_LEN];
        let before = digest(&page);
        for at in [0, 8, PAGE_LEN - 16, PAGE_LEN - 8, PAGE_LEN - 1] {
            page[at] = 1;
            assert_ne!(digest(&page), before, "{at}");
            page[at] = 0;
        }
    }

    #[test]
    fn words_that_change_places_change_the_digest() {
        let mut page = vec![0; 64];
        page[0] = 1;
        page[24] = 2;
        let before = digest(&page);
        for (one, two) in [(0, 8), (0, 16), (24, 8), (0, 24)] {
            let mut other = page.clone();
            for at in 0..8 {
                other.swap(one + at, two + at);
            }
            assert_ne!(digest(&other), before, "{one} and {two}");
        }
    }
}
