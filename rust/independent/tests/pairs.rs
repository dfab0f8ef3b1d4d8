//! Pairs of volumes, put together by hand. What a pair is refused with is
//! told in five numbers: the refusal, its text and start, which volume, and
//! where in it.

mod common;

use common::*;
use independent::refusal::LARGEST;
use independent::{check, pair, sha256, Pair, Refusal, Verdict};

const ACCEPTED: [u64; 5] = [0; 5];
const NOT_NEXT: [u64; 5] = [23, 0, 0, 0, 0];

/// The answer for a pair as its five numbers.
fn answer(first: &[u8], second: &[u8]) -> [u64; 5] {
    let Pair {
        refusal,
        text,
        start,
        which,
        offset,
    } = pair(first, second);
    [refusal, text, start, which, offset]
}

/// The sample volume: the file system ID is zeros, and the time is 7.
fn sample_v() -> Vec<u8> {
    [header_with([0; 16], 0, [0; 32]), data(7, b"1,5")].concat()
}

/// A volume with an empty table, if its number is above 0.
fn plain(id: [u8; 16], sequence: u64, previous: [u8; 32]) -> Vec<u8> {
    let mut bytes = header_with(id, sequence, previous);
    if sequence > 0 {
        bytes.extend(table(0, b""));
    }
    bytes
}

fn digest(bytes: &[u8]) -> [u8; 32] {
    sha256(bytes).expect("a digest")
}

/// The volume with an empty table that follows on the sample.
fn after_v() -> Vec<u8> {
    plain([0; 16], 1, digest(&sample_v()))
}

fn is_accepted(volume: &[u8]) -> bool {
    matches!(check(volume), Verdict::Accepted { .. })
}

#[test]
fn the_sample_and_the_volume_after_it() {
    let (v, next) = (sample_v(), after_v());
    assert_eq!(
        hex(&digest(&v)),
        "96dd04ea4e23f262c9a6f6890d0d77aed2cd8de0d936ee2ab7f0cb0bd21d496c"
    );
    assert_eq!((v.len(), next.len()), (104, 93));
    assert_eq!(pair(&v, &next), Pair::default());
    assert_eq!(answer(&v, &next), ACCEPTED);
}

#[test]
fn pairs_that_the_rules_refuse() {
    let (v, next) = (sample_v(), after_v());
    let hash = digest(&v);
    assert_eq!(answer(&v, &v), NOT_NEXT);
    assert_eq!(answer(&next, &v), NOT_NEXT);
    assert_eq!(answer(&next, &next), NOT_NEXT);
    assert_eq!(answer(&v, &plain([0; 16], 2, hash)), NOT_NEXT);
    assert_eq!(answer(&v, &plain([1; 16], 1, hash)), NOT_NEXT);
    assert_eq!(answer(&v, &plain([0; 16], 1, [0; 32])), NOT_NEXT);
    let mut damaged = v.clone();
    damaged[97] ^= 1;
    let mut wrong = next.clone();
    wrong[0] ^= 1;
    assert_eq!(answer(&damaged, &wrong), [5, 0, 0, 1, 80]);
    assert_eq!(answer(&v, &wrong), [3, 0, 0, 2, 0]);
    assert_eq!(answer(&damaged, &next), [5, 0, 0, 1, 80]);
}

/// Each bit of the ID, the number and the hash, with the checksum mended.
#[test]
fn every_bit_of_the_second_header() {
    let (v, next) = (sample_v(), after_v());
    for at in (18..34).chain(36..76) {
        for bit in 0..8 {
            let header = changed(&next[..80], at, &[next[at] ^ 1 << bit]);
            let other = [&header[..], &next[80..]].concat();
            // Volume 0 may have neither a hash nor a table.
            let expected = match (at, bit) {
                (36, 0) => [6, 0, 0, 2, 0],
                _ => NOT_NEXT,
            };
            assert_eq!(answer(&v, &other), expected, "{at}");
        }
    }
}

/// Each byte of the first volume counts, and so does its length.
#[test]
fn every_byte_of_the_first_volume() {
    let next = after_v();
    let v = sample_v();
    for at in 0..v.len() {
        let mut other = v.clone();
        other[at] ^= 0x40;
        assert_ne!(answer(&other, &next), ACCEPTED, "{at}");
    }
    let payloads: [&[u8]; 4] = [b"1,6", b"1,", b"1,50", b""];
    for payload in payloads {
        let other = [header_with([0; 16], 0, [0; 32]), data(7, payload)].concat();
        assert!(is_accepted(&other));
        assert_eq!(answer(&other, &next), NOT_NEXT);
    }
    let longer = [v.clone(), data(7, b"")].concat();
    assert_eq!(answer(&longer, &next), NOT_NEXT);
    assert_eq!(answer(&v[..80], &next), NOT_NEXT);
}

/// Only the ID, the number and the hash of the second count.
#[test]
fn other_blocks_of_the_second_volume() {
    let v = sample_v();
    let link = table_link(1, 2, b"name");
    for blocks in [
        vec![table(1, &link)],
        vec![table(0, b""), data(0, b"x"), inode(9, FOLDER, 70, b"")],
    ] {
        let second = [header_with([0; 16], 1, digest(&v)), blocks.concat()].concat();
        assert_eq!(answer(&v, &second), ACCEPTED);
    }
}

/// The highest number has none after it.
#[test]
fn sequence_numbers() {
    let id = [3; 16];
    for first in [0, 1, 5, 255, 256, 1 << 32, 1 << 63, TOP - 1, TOP] {
        let previous = if first == 0 { [0; 32] } else { [8; 32] };
        let one = plain(id, first, previous);
        let hash = digest(&one);
        for second in [
            1,
            2,
            3,
            6,
            7,
            256,
            257,
            (1 << 32) + 1,
            (1 << 63) + 1,
            TOP - 1,
            TOP,
        ] {
            let two = plain(id, second, hash);
            let next = u128::from(first) + 1 == u128::from(second);
            let expected = if next { ACCEPTED } else { NOT_NEXT };
            assert_eq!(answer(&one, &two), expected, "{first} and {second}");
        }
        // Volume 0 has no hash and comes after none.
        assert_eq!(answer(&one, &plain(id, 0, [0; 32])), NOT_NEXT);
    }
}

#[test]
fn a_chain_of_three() {
    let id = [9; 16];
    let zero = plain(id, 0, [0; 32]);
    let one = plain(id, 1, digest(&zero));
    let two = plain(id, 2, digest(&one));
    assert_eq!(answer(&zero, &one), ACCEPTED);
    assert_eq!(answer(&one, &two), ACCEPTED);
    assert_eq!(answer(&zero, &two), NOT_NEXT);
    assert_eq!(answer(&two, &one), NOT_NEXT);
}

/// Volumes that are refused, and with what: number, text, start and offset.
fn refused_volumes() -> Vec<(Vec<u8>, [u64; 4])> {
    let bad_path = [data(1, b""), rename(2, b"old", b"ab\xff")];
    vec![
        (vec![], [2, 0, 0, 0]),
        (header(0)[..79].to_vec(), [2, 0, 0, 0]),
        (header(1), [2, 0, 0, 80]),
        (spoiled(header(0)), [5, 0, 0, 0]),
        (changed(&header(0), 17, &[1]), [4, 0, 0, 0]),
        (changed(&header(0), 75, &[1]), [6, 0, 0, 0]),
        (volume(0, &[data(1, b""), vec![9]]), [7, 0, 0, 101]),
        (volume(0, &[table(0, b"")]), [8, 0, 0, 80]),
        (volume(1, &[table(4_097, b"")]), [9, 0, 0, 80]),
        (volume(0, &bad_path), [10, 1, 2, 101]),
        (volume(0, &[link(2, 1, b"\xff")]), [10, 0, 0, 80]),
        (volume(0, &[inode(1, FOLDER, 71, b"")]), [11, 0, 0, 80]),
        (volume(0, &[data(2, b""), data(1, b"")]), [14, 0, 0, 101]),
        (vec![0; 16_777_217], [1, 0, 0, 0]),
    ]
}

/// The first decides where both are refused, and a refused one comes before
/// all that is wrong with the pair.
#[test]
fn either_or_both_refused() {
    let sound = [sample_v(), after_v()];
    let refused = refused_volumes();
    for (one, [number, text, start, offset]) in &refused {
        assert!(*number as usize <= LARGEST);
        let verdict = check(one);
        let refusal = Refusal {
            number: *number,
            text: *text,
            start: *start,
        };
        let told = matches!(verdict, Verdict::Refused { refusal: r, offset: o, .. }
            if r == refusal && o == *offset);
        assert!(told, "{verdict:?}");
        let of = |which| [*number, *text, *start, which, *offset];
        for other in &sound {
            assert_eq!(answer(one, other), of(1));
            assert_eq!(answer(other, one), of(2));
        }
        for (other, _) in &refused {
            assert_eq!(answer(one, other), of(1));
        }
    }
}

/// The longest volume has a digest, and one byte more is refused.
#[test]
fn the_longest_volumes() {
    let id = [7; 16];
    let payload = noise(4, 16_777_216 - 80 - 21);
    let zero = [header(0), data(1, &payload)].concat();
    assert_eq!(zero.len(), 16_777_216);
    let hash = digest(&zero);
    let one = plain(id, 1, hash);
    assert_eq!(answer(&zero, &one), ACCEPTED);
    let payload = noise(5, 16_777_216 - 93 - 21);
    let full = [one, data(1, &payload)].concat();
    assert_eq!(full.len(), 16_777_216);
    assert_eq!(answer(&zero, &full), ACCEPTED);
    let over = [&full[..], b"0"].concat();
    assert_eq!(answer(&zero, &over), [1, 0, 0, 2, 0]);
    assert_eq!(answer(&over, &zero), [1, 0, 0, 1, 0]);
}
