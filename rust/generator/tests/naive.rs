//! Lookup, runs and the pairwise rules against the plainest code for them.

use generator::image::{self, Extent, COUNTED, REPEATED};
use generator::rng::Rng;
use generator::{case, describe};
use independent::{check, lookup, run_count, runs, Place, Refusal, Verdict};

fn number(bytes: &[u8], at: usize, width: usize) -> u64 {
    let field = bytes[at..at + width].iter().rev();
    field.fold(0, |sum, &byte| sum << 8 | u64::from(byte))
}

/// The size and the extents of the inode at an offset that was not refused.
fn file_at(volume: &[u8], offset: u64) -> (u64, Vec<Extent>) {
    let block = &volume[offset as usize..];
    let many = number(block, 63, 8) as usize / 57;
    let list = (0..many)
        .map(|k| {
            let at = 71 + 57 * k;
            Extent {
                volume: number(block, at, 8),
                start: number(block, at + 8, 8),
                size: number(block, at + 16, 8),
                multiplicity: block[at + 24],
                count: number(block, at + 25, 8),
                pre: number(block, at + 33, 8),
                post: number(block, at + 41, 8),
                logical: number(block, at + 49, 8),
            }
        })
        .collect();
    (number(block, 55, 8), list)
}

/// Which extent keeps a position, which copy it is in, and its offset.
fn holder(list: &[Extent], position: u64) -> Option<(usize, u64, u64)> {
    let mut found = None;
    for (place, e) in list.iter().enumerate() {
        let raw = u128::from(e.size) * u128::from(e.count);
        let kept = raw - u128::from(e.pre) - u128::from(e.post);
        let Some(k) = position.checked_sub(e.logical) else {
            continue;
        };
        if u128::from(k) >= kept {
            continue;
        }
        let r = u128::from(e.pre) + u128::from(k);
        let size = u128::from(e.size);
        let (copy, within) = match e.multiplicity {
            REPEATED => (r / size, r % size),
            _ => (0, r),
        };
        assert!(found.is_none(), "two extents keep one position");
        found = Some((place, copy as u64, e.start + within as u64));
    }
    found
}

/// Whether all that the extents keep lies inside the volumes.
fn all_there(list: &[Extent], lengths: &[u8]) -> bool {
    list.iter().all(|e| {
        let raw = u128::from(e.size) * u128::from(e.count);
        let nothing = raw == u128::from(e.pre) + u128::from(e.post);
        let stored = if e.multiplicity == REPEATED {
            u128::from(e.size)
        } else {
            raw
        };
        let known = e.volume < lengths.len() as u64 / 8;
        let fits = |v: u64| {
            let length = number(lengths, v as usize * 8, 8);
            u128::from(e.start) + stored <= u128::from(length)
        };
        nothing || known && fits(e.volume)
    })
}

#[test]
fn lookups() {
    let (mut answered, mut missing) = (0, 0);
    for seed in 0..4_000 {
        let case = case(seed);
        let lengths = &case.lengths;
        for &offset in &case.inode_offsets {
            for &position in &case.positions {
                let answer = lookup(&case.volume, offset, lengths, position);
                if !lengths.len().is_multiple_of(8) || lengths.len() > 8 * 4_096 {
                    assert_eq!(answer, Err(Refusal::of(9)), "{}", describe(&case));
                }
                if answer.is_err_and(|refusal| refusal != Refusal::of(16)) {
                    continue;
                }
                let (size, list) = file_at(&case.volume, offset);
                let expected = match holder(&list, position) {
                    _ if !all_there(&list, lengths) => Err(Refusal::of(16)),
                    _ if position >= size => Ok(Place::PastEnd),
                    None => Ok(Place::Hole),
                    Some((which, _, offset)) => Ok(Place::Stored {
                        volume: list[which].volume,
                        offset,
                    }),
                };
                assert_eq!(answer, expected, "{}", describe(&case));
                answered += u64::from(answer.is_ok());
                missing += u64::from(answer.is_err());
            }
        }
    }
    assert!(answered > 10_000 && missing > 1_000);
}

/// Runs found position by position.
fn plain_runs(list: &[Extent], from: u64, to: u64) -> Vec<u64> {
    let mut rows: Vec<u64> = Vec::new();
    let mut before = None;
    for position in from..to {
        let here = holder(list, position);
        let key = here.map(|(which, copy, _)| (which, copy));
        if before == Some(key) {
            let length = rows.len() - 4;
            rows[length] += 1;
        } else {
            match here {
                None => rows.extend([position, 1, 0, 0, 0]),
                Some((which, _, offset)) => {
                    rows.extend([position, 1, 1, list[which].volume, offset])
                }
            }
        }
        before = Some(key);
    }
    rows
}

#[test]
fn ranges() {
    let (mut short, mut long) = (0, 0);
    for seed in 0..4_000 {
        let case = case(seed);
        for &offset in &case.inode_offsets {
            for &(from, to) in &case.ranges {
                let count = match run_count(&case.volume, offset, &case.lengths, from, to) {
                    Ok(count) if count <= 5_000 => count as usize,
                    _ => continue,
                };
                let ask =
                    |out: &mut [u64]| runs(&case.volume, offset, &case.lengths, from, to, out);
                let mut out = vec![7; 5 * count + 3];
                assert_eq!(ask(&mut out), Ok(count as u64));
                assert_eq!(out.split_off(5 * count), [7; 3]);
                if count > 0 {
                    assert_eq!(ask(&mut vec![7; 5 * count - 1]), Err(Refusal::of(17)));
                }
                let (size, list) = file_at(&case.volume, offset);
                let to = to.min(size);
                if to.saturating_sub(from) <= 300 {
                    assert_eq!(out, plain_runs(&list, from, to), "{}", describe(&case));
                    short += 1;
                    continue;
                }
                // Too long to walk: the runs join up, and their ends are right.
                let mut at = from;
                for row in out.as_chunks::<5>().0 {
                    let [start, length, kind, volume, place] = *row;
                    assert_eq!(start, at);
                    assert!(length > 0);
                    let first = holder(&list, start);
                    let last = holder(&list, start + (length - 1));
                    match first {
                        None => assert_eq!((kind, volume, place, last), (0, 0, 0, None)),
                        Some((which, copy, offset)) => {
                            assert_eq!((kind, place), (1, offset));
                            assert_eq!(volume, list[which].volume);
                            assert_eq!(last, Some((which, copy, offset + (length - 1))));
                        }
                    }
                    at = start + length;
                    if at < to {
                        let key = |h: Option<(usize, u64, u64)>| h.map(|(w, c, _)| (w, c));
                        assert_ne!(key(last), key(holder(&list, at)));
                    }
                }
                assert_eq!(at, to);
                long += 1;
            }
        }
    }
    assert!(short > 5_000 && long > 1_000, "{short} {long}");
}

#[test]
fn overlaps() {
    let mut rng = Rng::new(1);
    let mut refused = 0;
    for _ in 0..20_000 {
        let many = rng.between(2, 9);
        let list: Vec<Extent> = (0..many)
            .map(|_| Extent {
                volume: 0,
                start: 0,
                size: rng.below(4),
                multiplicity: rng.pick(&[COUNTED, REPEATED]),
                count: rng.below(3),
                pre: 0,
                post: 0,
                logical: rng.below(60),
            })
            .collect();
        let share = |a: &Extent, b: &Extent| {
            let (left, right) = (a.size * a.count, b.size * b.count);
            (a.logical..a.logical + left).any(|p| (b.logical..b.logical + right).contains(&p))
        };
        let meets = (0..list.len()).any(|j| (0..j).any(|i| share(&list[i], &list[j])));
        let mut draft = generator::draft::Draft::new(&mut rng, 0);
        draft.file(&mut rng, 1, 9, list);
        match check(&draft.bytes) {
            Verdict::Accepted { .. } => assert!(!meets),
            Verdict::Refused { refusal, .. } => {
                assert_eq!(refusal, Refusal::of(12));
                assert!(meets);
                refused += 1;
            }
        }
    }
    assert!((4_000..16_000).contains(&refused), "{refused}");
}

#[test]
fn links_twice() {
    let mut rng = Rng::new(2);
    let mut refused = 0;
    for _ in 0..20_000 {
        let many = rng.between(0, 9);
        let list: Vec<(u64, Vec<u8>)> = (0..many)
            .map(|_| {
                let length = rng.below(4);
                let name = (0..length).map(|_| rng.pick(b"ab")).collect();
                (rng.below(3), name)
            })
            .collect();
        let meets = (0..list.len()).any(|j| (0..j).any(|i| list[i] == list[j]));
        let links: Vec<u8> = list
            .iter()
            .flat_map(|(parent, name)| image::table_link(rng.word(), *parent, name))
            .collect();
        let mut draft = generator::draft::Draft::new(&mut rng, 1);
        draft.push(&image::table(many, &links));
        match check(&draft.bytes) {
            Verdict::Accepted { .. } => assert!(!meets),
            Verdict::Refused { refusal, .. } => {
                assert_eq!(refusal, Refusal::of(13));
                assert!(meets);
                refused += 1;
            }
        }
    }
    assert!((4_000..16_000).contains(&refused), "{refused}");
}

#[test]
fn times() {
    let mut rng = Rng::new(3);
    let mut refused = 0;
    for _ in 0..20_000 {
        let least = rng.pick(&[0, 5, u64::MAX - 3]);
        let many = rng.between(1, 5);
        let list: Vec<u64> = (0..many).map(|_| least + rng.below(4)).collect();
        let mut draft = generator::draft::Draft::new(&mut rng, 0);
        for &time in &list {
            draft.push(&image::data(time, b""));
        }
        let falls = (1..list.len()).find(|&k| list[k - 1] > list[k]);
        match check(&draft.bytes) {
            Verdict::Accepted { end, .. } => {
                assert_eq!((falls, end.last), (None, list.last().copied()));
            }
            Verdict::Refused {
                refusal, blocks, ..
            } => {
                assert_eq!(refusal, Refusal::of(14));
                assert_eq!(Some(blocks as usize), falls);
                refused += 1;
            }
        }
    }
    assert!((4_000..16_000).contains(&refused), "{refused}");
}
