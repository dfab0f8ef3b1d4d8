//! Every change of one byte and every cut of small sound volumes.
#![forbid(unsafe_code)]

use std::ops::Range;

use compare::answers::Told;
use compare::files::Inode;
use compare::seeds::Seeds;
use compare::tally::Numbers;
use compare::texts::Texts;
use compare::{repairs, small, volume, Difference};
use generator::draft::Draft;
use generator::image;
use independent::Refusal;

/// How many volumes there are.
const VOLUMES: Seeds = Seeds {
    first: 0,
    count: 60,
};

/// Does something with every volume and answers how often each refusal number came.
fn each_volume<F>(work: F) -> Numbers
where
    F: Fn(&Draft, &mut Numbers) -> Result<(), String> + Sync,
{
    let counts = VOLUMES.each(|number, counts: &mut Numbers| {
        let draft = small::volume(number);
        work(&draft, counts).map_err(|told| format!("small volume {number}: {told}"))
    });
    let mut sum = Numbers::default();
    for counts in counts.unwrap_or_else(|told| panic!("{told}")) {
        for (number, count) in counts.iter().enumerate() {
            sum[number] += count;
        }
    }
    println!("{sum:?}");
    sum
}

/// Compares the checks and the repairs of some bytes.
fn check(bytes: &[u8], counts: &mut Numbers) -> Result<(), String> {
    let checked = volume::check(bytes).map_err(|difference| told(difference, bytes))?;
    let repair = repairs::repair(bytes, &checked);
    repair.map_err(|difference| told(difference, bytes))?;
    counts[checked.refusal as usize] += 1;
    Ok(())
}

fn told(difference: Difference, bytes: &[u8]) -> String {
    format!("{difference}\nvolume: {}", generator::hex(bytes))
}

/// Every volume with one byte changed in each of three ways.
fn changed(draft: &Draft) -> impl Iterator<Item = (usize, Vec<u8>)> + '_ {
    let ways: [fn(u8) -> u8; 3] = [|b| b.wrapping_add(1), |b| b.wrapping_sub(1), |b| b ^ 0x80];
    let places = 0..draft.bytes.len();
    places.flat_map(move |place| {
        ways.map(|way| {
            let mut bytes = draft.bytes.clone();
            bytes[place] = way(bytes[place]);
            (place, bytes)
        })
    })
}

#[test]
fn small_volumes_are_sound_and_have_every_kind() {
    let counts = each_volume(|draft, counts| {
        let mut kinds: Vec<u8> = draft
            .places
            .iter()
            .map(|&at| draft.bytes[at as usize])
            .collect();
        kinds.sort_unstable();
        kinds.dedup();
        let last = if draft.sequence > 0 { 8 } else { 7 };
        assert_eq!(kinds, (1..=last).collect::<Vec<u8>>());
        assert!(draft.bytes.len() < 1_000);
        check(&draft.bytes, counts)
    });
    assert_eq!(counts[0], VOLUMES.count);
}

#[test]
fn every_changed_byte() {
    let counts = each_volume(|draft, counts| {
        changed(draft).try_for_each(|(_, bytes)| check(&bytes, counts))
    });
    // A checksum shows every such change that nothing else showed before.
    assert_eq!(counts[0], 0);
}

#[test]
fn every_changed_byte_with_mended_checksums() {
    let counts = each_volume(|draft, counts| {
        changed(draft).try_for_each(|(_, mut bytes)| {
            image::mend(&mut bytes);
            check(&bytes, counts)
        })
    });
    for number in [0, 2, 3, 4, 6, 7, 8, 9, 10, 11, 12, 13, 14] {
        assert!(counts[number] > 0, "refusal {number} was not compared");
    }
}

/// Every other value of every byte of every text of some volumes.
#[test]
fn every_changed_byte_of_a_text() {
    let seeds = Seeds {
        count: 6,
        ..VOLUMES
    };
    let counts = seeds.each(|number, texts: &mut Texts| {
        let draft = small::volume(number);
        for block in image::blocks(&draft.bytes) {
            for text in image::texts(&draft.bytes[block.clone()]) {
                for at in text {
                    each_value(&draft.bytes, &block, at, texts)?;
                }
            }
        }
        Ok(())
    });
    let mut sum = Texts::default();
    for texts in counts.unwrap_or_else(|told| panic!("{told}")) {
        sum.add(&texts);
    }
    println!("{sum}");
    assert!(!sum.are_few(1_000), "{sum}");
}

/// Compares the check of a volume with each other value of one byte of a block, whose checksum is
/// right again.
fn each_value(
    volume: &[u8],
    block: &Range<usize>,
    at: usize,
    texts: &mut Texts,
) -> Result<(), String> {
    for by in 1..=255 {
        let mut bytes = volume.to_vec();
        bytes[block.start + at] ^= by;
        image::reseal(&mut bytes[block.clone()]);
        let checked = volume::check(&bytes).map_err(|difference| told(difference, &bytes))?;
        texts.note(checked.told());
    }
    Ok(())
}

#[test]
fn every_cut() {
    let counts = each_volume(|draft, counts| {
        let bytes = &draft.bytes;
        (0..bytes.len()).try_for_each(|end| check(&bytes[..end], counts))
    });
    // Between two blocks a cut leaves a sound volume.
    assert!(counts[0] >= VOLUMES.count && counts[2] > 0);
}

/// Changes in the bytes of a file, as they show in its positions and runs.
#[test]
fn every_changed_byte_of_a_file() {
    let lengths = [100u64, 103].map(u64::to_le_bytes).concat();
    let counts = each_volume(|draft, counts| {
        let offset = draft.files[0].offset;
        let block = offset as usize..offset as usize + 75 + 3 * 57;
        let within = changed(draft).filter(|(place, _)| block.contains(place));
        for (_, mut bytes) in within {
            image::reseal(&mut bytes[block.clone()]);
            let inode = Inode {
                volume: &bytes,
                offset,
                lengths: &lengths,
            };
            for refusal in file(&inode).map_err(|difference| told(difference, &bytes))? {
                counts[refusal.number as usize] += 1;
            }
        }
        Ok(())
    });
    for number in [0, 2, 5, 7, 9, 11, 12, 16, 17] {
        assert!(counts[number] > 0, "refusal {number} was not compared");
    }
}

/// Some positions and ranges of a file, and the refusals they gave.
fn file(inode: &Inode<'_>) -> Result<Vec<Refusal>, Difference> {
    let mut seen = Vec::new();
    for position in [0, 2, 10, 15, 24, 33] {
        seen.push(inode.lookup(position)?.told());
    }
    for (from, to) in [(0, u64::MAX), (5, 17)] {
        seen.push(inode.runs(from, to, 62)?);
        seen.extend(inode.runs_at_the_edge(from, to)?);
    }
    Ok(seen)
}
