//! Trees beside a listing that goes through all links for each folder.

mod common;

use common::tree::{listed, volume_of, Links, AT};
use common::*;
use independent::Refusal;

/// Adds the lines of a folder whose links stand at this depth, the first ones
/// that are too deep too, until there are so many.
fn add(links: &Links, folder: u64, depth: u64, most: usize, lines: &mut Vec<[u64; 2]>) {
    for (place, &(child, parent)) in (0..).zip(links) {
        if lines.len() == most {
            return;
        }
        if parent == folder {
            lines.push([depth, place]);
            if depth < 32 {
                add(links, child, depth + 1, most, lines);
            }
        }
    }
}

/// The answer line by line: the first that cannot be given decides.
fn naive(links: &Links, root: u64, room: usize) -> Result<Vec<[u64; 2]>, Refusal> {
    let mut lines = Vec::new();
    add(links, root, 0, room / 2 + 1, &mut lines);
    for (before, &[depth, _]) in lines.iter().enumerate() {
        if depth == 32 {
            return no(24);
        }
        if room < 2 * before + 2 {
            return no(17);
        }
    }
    Ok(lines)
}

#[derive(Debug, Default)]
struct Counts {
    empty: u64,
    listed: u64,
    no_room: u64,
    too_deep: u64,
    /// Listings with a link that stands in more than one line.
    again: u64,
    deepest: u64,
}

impl Counts {
    /// Compares in so much room.
    fn compare(&mut self, links: &Links, volume: &[u8], root: u64, room: usize) {
        let told = listed(volume, AT, root, room);
        let expected = naive(links, root, room);
        assert_eq!(told, expected, "{links:?} from {root} in {room}");
        match told {
            Ok(lines) => {
                self.empty += u64::from(lines.is_empty());
                self.listed += u64::from(!lines.is_empty());
                self.again += u64::from(lines.len() > links.len());
                let depths = lines.iter().map(|line| line[0]);
                self.deepest = self.deepest.max(depths.max().unwrap_or(0));
            }
            Err(refusal) if refusal == Refusal::of(24) => self.too_deep += 1,
            Err(_) => self.no_room += 1,
        }
    }

    /// Compares in all rooms in which the answer may become another one, up
    /// to `most`.
    fn compare_all(&mut self, links: &Links, root: u64, most: usize) {
        let volume = volume_of(links);
        let mut lines = Vec::new();
        add(links, root, 0, most / 2, &mut lines);
        let good = lines.iter().take_while(|line| line[0] < 32).count();
        let rooms = (2 * good).saturating_sub(3)..2 * good + 4;
        for room in rooms.chain([0, 1, good, most]) {
            self.compare(links, &volume, root, room);
        }
    }
}

/// A table of any links between so many inodes.
fn any_links(dice: &[u8], inodes: u8) -> Vec<(u64, u64)> {
    let number = |die: u8| u64::from(die % inodes);
    dice.chunks_exact(2)
        .map(|two| (number(two[0]), number(two[1])))
        .collect()
}

/// A table in which every link leads upwards, so that there is no loop.
fn rising_links(dice: &[u8], inodes: u8) -> Vec<(u64, u64)> {
    let link = |two: &[u8]| {
        let parent = two[0] % inodes;
        let child = parent + 1 + two[1] % 3;
        (u64::from(child), u64::from(parent))
    };
    dice.chunks_exact(2).map(link).collect()
}

#[test]
fn random_links() {
    let mut counts = Counts::default();
    for seed in 0..3_000 {
        let dice = noise(seed, 66);
        let many = 2 * usize::from(dice[0] % 33);
        let links = any_links(&dice[1..][..many.min(64)], 1 + dice[65] % 40);
        for root in 0..3 {
            counts.compare_all(&links, root, 400);
        }
    }
    println!("{counts:?}");
    assert!(counts.empty > 1_000 && counts.listed > 5_000);
    assert!(counts.no_room > 5_000 && counts.too_deep > 5_000);
}

#[test]
fn random_links_without_loops() {
    let mut counts = Counts::default();
    for seed in 0..2_000 {
        let dice = noise(seed, 162);
        let many = 2 * usize::from(dice[0] % 81);
        let links = rising_links(&dice[1..][..many.min(160)], 2 + dice[161] % 50);
        counts.compare_all(&links, 0, 3_000);
    }
    println!("{counts:?}");
    assert!(counts.listed > 3_000 && counts.no_room > 3_000);
    assert!(counts.again > 1_000 && counts.deepest > 12);
}

/// A chain that ends near the last depth, and some links more.
fn deep_links(dice: &[u8]) -> Vec<(u64, u64)> {
    let length = 28 + dice[0] % 7;
    let chain = (0..length).map(|k| (u64::from(k) + 1, u64::from(k)));
    let extra = rising_links(&dice[2..][..usize::from(dice[1] % 9)], length);
    // What leads far up holds nothing.
    let leaf = |(k, (child, parent))| (if k % 3 > 0 { child + 100 } else { child }, parent);
    let extra = (0u64..).zip(extra).map(leaf);
    let mut links: Vec<(u64, u64)> = chain.chain(extra).collect();
    links.rotate_left(usize::from(dice[1]) % usize::from(length));
    if dice[11].is_multiple_of(2) {
        links.reverse();
    }
    links
}

#[test]
fn random_deep_links() {
    let mut counts = Counts::default();
    for seed in 0..2_000 {
        let links = deep_links(&noise(seed, 12));
        counts.compare_all(&links, 0, 2_000);
    }
    println!("{counts:?}");
    assert!(counts.listed > 2_000 && counts.no_room > 2_000);
    assert!(counts.again > 500 && counts.too_deep > 2_000);
    assert_eq!(counts.deepest, 31);
}

/// Every table of at most three links between three inodes.
#[test]
fn all_small_tables() {
    let mut counts = Counts::default();
    let pairs: Vec<(u64, u64)> = (0..9).map(|k| (k / 3, k % 3)).collect();
    for one in &pairs {
        counts.compare_all(&[*one], 0, 200);
        for two in &pairs {
            counts.compare_all(&[*one, *two], 0, 200);
            for three in &pairs {
                counts.compare_all(&[*one, *two, *three], 0, 200);
            }
        }
    }
    println!("{counts:?}");
    assert_eq!(counts.deepest, 1);
}
