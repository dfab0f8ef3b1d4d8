//! The search against the reader at every byte, and its budget.

use std::fs;
use std::path::PathBuf;

use super::*;
use crate::runs::support::{data, file, header, inode, link, removed_xattr, rename, table, xattr};
use crate::runs::support::{small_volume, Extent, Numbers, LINK, SYMBOLIC_LINK, UNLINK};
use crate::MAX_VOLUME_LEN;

/// The answer of a search that came to the end.
fn all(count: u64) -> WholeBlocks {
    WholeBlocks {
        count,
        may_be_more: false,
    }
}

/// The answer of one that did not.
fn at_least(count: u64) -> WholeBlocks {
    WholeBlocks {
        count,
        may_be_more: true,
    }
}

/// A block of each kind but the table. Their times fall, which is nothing to the search.
fn kinds() -> [Vec<u8>; 8] {
    [
        file(9, 7, 3, &[Extent::once(0, 97, 3, 0)]),
        inode(8, 8, SYMBOLIC_LINK, 75, b"gauge"),
        link(LINK, 7, 8, 1, "gauge"),
        link(UNLINK, 6, 8, 1, "g"),
        xattr(5, 7, b"unit", b"\xFF"),
        removed_xattr(4, 7, b"unit"),
        rename(3, b"ab", b"c"),
        data(2, b"1,5"),
    ]
}

#[test]
fn blocks_of_every_kind_are_found_wherever_they_begin() {
    for block in kinds() {
        for before in 0..40 {
            let volume = [header(0), vec![0xA5; before], block.clone(), vec![0; 3]].concat();
            assert_eq!(search(&volume, 80), all(1), "{block:?}");
            assert_eq!(search(&volume, 80 + before), all(1), "{block:?}");
            assert_eq!(search(&volume, 80 + before + 1), all(0), "{block:?}");
        }
    }
}

#[test]
fn many_blocks_are_counted_to_the_end() {
    let one_after_the_other = kinds().concat();
    let volume = [header(0), one_after_the_other.repeat(1000)].concat();
    assert_eq!(search(&volume, 80), all(8000));
    assert_eq!(search(&volume, 81), all(7999));
    let volume = [header(0), kinds().join(&b"between"[..])].concat();
    assert_eq!(search(&volume, 80), all(8));
}

#[test]
fn a_block_that_is_cut_or_damaged_is_none() {
    for block in kinds() {
        let volume = [header(0), block.clone()].concat();
        for end in 80..volume.len() {
            assert_eq!(search(&volume[..end], 80), all(0), "{block:?}");
        }
        let mut damaged = volume.clone();
        let last = damaged.len() - 1;
        damaged[last] ^= 1;
        assert_eq!(search(&damaged, 80), all(0), "{block:?}");
    }
}

/// A whole block is one, whatever it has inside. One that is cut short shows what it has.
#[test]
fn blocks_in_a_payload_are_counted_where_it_is_cut() {
    let outer = data(9, &[small_volume(), kinds().concat()].concat());
    let volume = [header(0), outer].concat();
    assert_eq!(search(&volume, 80), all(1));
    assert_eq!(search(&volume[..volume.len() - 1], 80), all(9));
}

#[test]
fn offsets_at_the_edges() {
    let volume = small_volume();
    assert_eq!(search(&volume, 0), all(1));
    assert_eq!(search(&volume, 104), all(0));
    assert_eq!(search(&volume, usize::MAX), all(0));
    assert_eq!(search(&[], 0), all(0));
    // Where a header should be the reader knows no block, nor a table that is not due.
    assert_eq!(search(&data(7, &[0; 100]), 0), all(0));
    assert_eq!(search(&[header(1), table(&[])].concat(), 80), all(0));
}

#[test]
fn a_volume_of_the_greatest_length_has_blocks_and_a_longer_one_has_none() {
    let before = vec![0; MAX_VOLUME_LEN - 24];
    let mut volume = [before, data(7, b"1,5")].concat();
    assert_eq!(search(&volume, 80), all(1));
    volume.push(0);
    assert_eq!(search(&volume, 80), all(0));
}

/// Whoever looks at the lengths alone leaves out no place at which the reader finds a block, and
/// charges for each block just what it has.
fn compare(volume: &[u8]) {
    for at in 80..volume.len() {
        let block = read(volume, Bookmark::at(at as u64));
        let stated = stated_len(&volume[at..]);
        match block.refusal {
            0 => assert_eq!(stated, Some(block.next as usize - at)),
            // What the reader refuses for its length takes nothing from the budget.
            2 | 7 | 8 => assert_eq!(stated, None),
            _ => assert!(stated.is_some() || block.refusal == 9),
        }
    }
}

#[test]
fn the_lengths_are_those_of_the_reader() {
    let folder = PathBuf::from(env!("CARGO_MANIFEST_DIR")).join("../../crates/samples/data");
    let entries = fs::read_dir(folder).expect("the sample volumes are there");
    let mut numbers = Numbers(0x5EED_0BAD_5EED_0BAD);
    let mut compared = 0;
    for path in entries.map(|entry| entry.unwrap().path()) {
        let volume = fs::read(&path).unwrap();
        if path.extension().is_none_or(|end| end != "vol") || volume.len() > 2000 {
            continue;
        }
        compare(&volume);
        compared += 1;
        for _ in 0..volume.len().min(50) {
            let mut damaged = volume.clone();
            let at = numbers.below(volume.len() as u64) as usize;
            damaged[at] = numbers.below(9) as u8;
            compare(&damaged);
        }
    }
    assert!(compared > 40);
}

#[test]
fn small_numbers_look_like_many_blocks() {
    let mut numbers = Numbers(0xFEED_F00D_FEED_F00D);
    for _ in 0..200 {
        let small = |_| numbers.below(10) as u8;
        compare(&(0..400).map(small).collect::<Vec<u8>>());
    }
}

/// Three blocks of 24 bytes, with nothing between them to look at.
#[test]
fn the_budget_is_counted_in_bytes() {
    let volume = [small_volume(), data(8, b"1,5"), data(9, b"1,5")].concat();
    for (budget, expected) in [
        (72, all(3)),
        (71, at_least(2)),
        (48, at_least(2)),
        (47, at_least(1)),
        (24, at_least(1)),
        (23, at_least(0)),
        (0, at_least(0)),
    ] {
        assert_eq!(search_within(budget, &volume, 80), expected, "{budget}");
    }
    assert_eq!(search_within(0, &volume, volume.len()), all(0));
}

/// Every byte of it looks like the first of a rename of 3,615 bytes: 56 GiB in all.
#[test]
fn a_hostile_volume_uses_up_the_budget() {
    let blocks = [small_volume(), data(8, b"1,5")].concat();
    let last = data(9, b"1,5");
    let sevens = vec![7; MAX_VOLUME_LEN - blocks.len() - last.len()];
    let volume = [blocks, sevens, last].concat();
    assert_eq!(volume.len(), MAX_VOLUME_LEN);
    assert_eq!(search(&volume, 80), at_least(2));
    // Nearer to the end it is found.
    assert_eq!(search(&volume, volume.len() - 100_000), all(1));
}
