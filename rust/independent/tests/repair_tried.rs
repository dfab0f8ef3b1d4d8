//! Repair beside the longest of all beginnings that are accepted, which are
//! tried one by one.

mod common;

use common::torn::{every_kind, small_table, tried};
use common::*;
use independent::refusal::LARGEST;
use independent::*;

/// Answers, by the number of the refusal; 0 for a volume that is kept whole.
#[derive(Debug, Default)]
struct Counts {
    told: [u64; LARGEST + 1],
    repaired: u64,
}

impl Counts {
    /// Compares with every beginning tried. What is kept is accepted, and
    /// repair has nothing more to do with it.
    fn add(&mut self, volume: &[u8]) {
        let answer = repair(volume);
        assert_eq!(answer, tried(volume), "{}", hex(volume));
        let Ok(length) = answer else {
            self.told[number(answer) as usize] += 1;
            return;
        };
        assert_eq!(longest_accepted(volume), Some(length), "{}", hex(volume));
        let kept = &volume[..length as usize];
        assert!(matches!(check(kept), Verdict::Accepted { .. }));
        assert_eq!(repair(kept), Ok(length));
        let is_whole = kept.len() == volume.len();
        self.told[0] += u64::from(is_whole);
        self.repaired += u64::from(!is_whole);
    }
}

/// A volume of one table and every kind.
fn all_kinds() -> Vec<u8> {
    volume(1, &[vec![small_table()], every_kind(8).to_vec()].concat())
}

/// Every byte with each of the other values. What is told of a header's bytes
/// and of IDs is told before all else, and so its numbers can be counted.
#[test]
fn every_damaged_byte() {
    let mut counts = Counts::default();
    let sound = all_kinds();
    for at in 0..sound.len() {
        for flip in 1..=255 {
            let mut volume = sound.clone();
            volume[at] ^= flip;
            counts.add(&volume);
        }
    }
    println!("{counts:?}");
    assert_eq!(counts.told[0], 0);
    assert_eq!(counts.told[3], 255 * 17);
    assert_eq!(counts.told[4], 255 * 3);
    // 0 and 9 to 255 in place of each of ten IDs, 8 in place of the nine that
    // are no table's, and 1 to 7 in place of the one that is.
    assert_eq!(counts.told[7], 248 * 10);
    assert_eq!(counts.told[8], 9 + 7);
    assert!(counts.repaired > 5_000 && counts.told[2] > 500);
    assert!(counts.told[5] > 100_000 && counts.told[9] > 1_000);
}

/// Blocks that are at fault whatever follows them. The first one is where a
/// time stands before it.
fn at_fault(time: u64) -> [Vec<u8>; 8] {
    let same = (0, 97, 3, 67, 1, 0, 0, 0);
    [
        data(0, b"1,5"),
        spoiled(data(time, b"1,5")),
        small_table(),
        inode_stating(time, REGULAR, 0, 58_369, b""),
        link(2, time, b"a\xffb"),
        rename(time, b"gauge", b"ab\xff"),
        inode(time, FOLDER, 71, b""),
        inode(time, REGULAR, 3, &extents(&[same, same])),
    ]
}

/// A block of any kind, one in eight of them at fault.
fn any_block(time: u64, die: usize) -> Vec<u8> {
    match die % 8 {
        0 => at_fault(time)[die / 8 % 8].clone(),
        _ => every_kind(time)[die % 9].clone(),
    }
}

/// A small volume, whole or cut or damaged or with something behind it.
fn drawn(seed: u64) -> Vec<u8> {
    let dice: Vec<usize> = noise(seed, 20).into_iter().map(usize::from).collect();
    let sequence = dice[0] % 2;
    let mut blocks = vec![small_table(); sequence];
    for (time, &die) in (8..).zip(&dice[10..10 + dice[1] % 6]) {
        blocks.push(any_block(time, die));
    }
    let mut bytes = volume(sequence as u64, &blocks);
    let at = (dice[2] * 256 + dice[3]) % bytes.len();
    let (value, more) = (dice[4] as u8, dice[5] % 40);
    match dice[6] % 8 {
        0 => {}
        1 | 2 => bytes.truncate(at),
        3 => bytes[at] ^= 1 << (value % 8),
        4 => bytes.extend(vec![0; more]),
        5 => {
            bytes.push(value % 10);
            bytes.extend(noise(seed ^ 1, more));
        }
        6 => bytes[at.max(76)..]
            .iter_mut()
            .take(4)
            .for_each(|byte| *byte = value),
        _ => {
            bytes[at] = value;
            bytes.truncate(bytes.len() - more);
        }
    }
    bytes
}

#[test]
fn random_small_volumes() {
    let mut counts = Counts::default();
    for seed in 0..8_000 {
        counts.add(&drawn(seed));
    }
    println!("{counts:?}");
    assert!(counts.told[0] > 600 && counts.repaired > 1_000);
    for number in [2, 3, 5, 7, 8, 9, 10, 11, 12, 14] {
        assert!(counts.told[number] > 40, "{number}");
    }
}
