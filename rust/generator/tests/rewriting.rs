//! What is read can be written again, and what is not read cannot.

mod common;

use common::{Found, KINDS};
use generator::number::FULL;
use generator::{case, describe, Case, Expected};
use independent::refusal::LARGEST;
use independent::*;

/// Appends the block whose bytes these are, from its fields as they stand.
/// Nothing is checked here.
fn append_raw(buffer: &mut [u8], mark: Bookmark, image: &[u8]) -> Result<Bookmark, Refusal> {
    let number = |at: usize| u64::from_le_bytes(image[at..at + 8].try_into().unwrap());
    let short = |at: usize| u16::from_le_bytes(image[at..at + 2].try_into().unwrap());
    let end = image.len() - 4;
    match image[0] {
        1 => {
            let stat = Stat {
                inode: number(1),
                time: number(9),
                mode: short(17),
                uid: short(19),
                gid: short(21),
                atime: number(23),
                mtime: number(31),
                ctime: number(39),
                btime: number(47),
                size: number(55),
            };
            append_inode(buffer, mark, &stat, &image[71..end])
        }
        2 => append_link(
            buffer,
            mark,
            number(1),
            number(9),
            number(17),
            &image[27..end],
        ),
        3 => append_unlink(
            buffer,
            mark,
            number(1),
            number(9),
            number(17),
            &image[27..end],
        ),
        4 => {
            let middle = 20 + usize::from(image[17]);
            let (name, value) = (&image[20..middle], &image[middle..end]);
            append_xattr(buffer, mark, number(1), number(9), name, value)
        }
        5 => append_removed_xattr(buffer, mark, number(1), number(9), &image[18..end]),
        6 => append_data(buffer, mark, number(1), &image[17..end]),
        7 => {
            let middle = 13 + usize::from(short(9));
            let (old, new) = (&image[13..middle], &image[middle..end]);
            append_rename(buffer, mark, number(1), old, new)
        }
        _ => append_table(buffer, mark, number(1), &image[9..end]),
    }
}

/// Writes the header and the first blocks of a volume afresh, each with no
/// more room than it needs, and gives the bookmark after them.
fn rewrite(case: &Case, blocks: u64, buffer: &mut [u8]) -> Bookmark {
    let volume = &case.volume;
    let header = read_header(volume).unwrap();
    let mut mark = write_header(buffer, header.id, header.sequence, header.previous).unwrap();
    assert_eq!(mark, header.next);
    for _ in 0..blocks {
        let Ok(Reading::Block(block, next)) = read(volume, mark) else {
            panic!("no block\n{}", describe(case));
        };
        let (from, to) = (block.offset as usize, next.offset as usize);
        let image = &volume[from..to];
        let kept = buffer.to_vec();
        let cramped = append_raw(&mut buffer[..to - 1], mark, image);
        assert_eq!(cramped, Err(Refusal::of(17)));
        assert!(buffer == kept);
        let answer = append_raw(&mut buffer[..to], mark, image);
        assert_eq!(answer, Ok(next), "{}", describe(case));
        mark = next;
    }
    mark
}

#[test]
fn accepted_volumes_afresh() {
    let mut blocks_seen = 0;
    for seed in 0..3_000 {
        let case = case(seed);
        if case.volume.len() > 1 << 20 {
            continue;
        }
        let Verdict::Accepted { blocks, end, .. } = check(&case.volume) else {
            continue;
        };
        let mut buffer = vec![0xEE; case.volume.len()];
        assert_eq!(rewrite(&case, blocks, &mut buffer), end);
        assert!(buffer == case.volume, "{}", describe(&case));
        blocks_seen += blocks;
    }
    assert!(blocks_seen > 3_000);
}

#[test]
fn faulty_blocks_are_not_written() {
    let mut seen = [0; LARGEST + 1];
    for seed in 0..6_000 {
        let case = case(seed);
        let Expected::Refused {
            number: number @ 10..=14,
            fault,
            offset,
            blocks,
        } = case.expected
        else {
            continue;
        };
        let mut buffer = vec![0xEE; case.volume.len()];
        let mark = rewrite(&case, blocks, &mut buffer);
        assert_eq!(mark.offset, offset);
        let image = first_block(&case.volume[offset as usize..]);
        let kept = buffer.clone();
        let answer = append_raw(&mut buffer, mark, image);
        let refusal = Refusal {
            number,
            text: fault.text,
            start: fault.start,
        };
        assert_eq!(answer, Err(refusal), "{}", describe(&case));
        let full = append_raw(&mut buffer, mark.numbered(FULL), image);
        assert_eq!(full, Err(Refusal::of(9)), "{}", describe(&case));
        assert!(buffer == kept);
        seen[number as usize] += 1;
    }
    assert!(seen[10..=14].iter().all(|&count| count > 50), "{seen:?}");
}

/// Appends the block at a bookmark of a volume at the last number after which
/// there is another, and at the largest: there only a wrong place is told
/// before.
fn at_the_last_numbers(case: &Case, mark: Bookmark, next: Bookmark) {
    let (from, to) = (mark.offset as usize, next.offset as usize);
    let image = &case.volume[from..to];
    let mut buffer = vec![0xEE; to];
    let full = mark.numbered(FULL);
    let misplaced = Bookmark {
        due: !full.due,
        ..full
    };
    for (mark, number) in [(full, 9), (misplaced, 8)] {
        let answer = append_raw(&mut buffer, mark, image);
        assert_eq!(answer, Err(Refusal::of(number)), "{}", describe(case));
        assert!(buffer.iter().all(|&byte| byte == 0xEE));
    }
    let answer = append_raw(&mut buffer, mark.numbered(FULL - 1), image);
    assert_eq!(answer, Ok(next.numbered(FULL)), "{}", describe(case));
    assert!(&buffer[from..] == image);
}

#[test]
fn blocks_of_every_kind_at_the_last_numbers() {
    let mut found = Found::default();
    for seed in 0..2_000 {
        let case = case(seed);
        if case.expected != Expected::Accepted || case.volume.len() > 1 << 20 {
            continue;
        }
        let mut mark = read_header(&case.volume).unwrap().next;
        while let Reading::Block(block, next) = read(&case.volume, mark).unwrap() {
            at_the_last_numbers(&case, mark, next);
            found.note(KINDS[usize::from(block.id) - 1], true);
            mark = next;
        }
    }
    assert_eq!(found.0.len(), KINDS.len());
    found.at_least(50);
}

/// The bytes of the block at the front; it is there in full.
fn first_block(bytes: &[u8]) -> &[u8] {
    let short = |at: usize| usize::from(u16::from_le_bytes([bytes[at], bytes[at + 1]]));
    let long = |at: usize| u64::from_le_bytes(bytes[at..at + 8].try_into().unwrap()) as usize;
    let length = match bytes[0] {
        1 => 75 + long(63),
        2 | 3 => 31 + short(25),
        4 => 24 + usize::from(bytes[17]) + short(18),
        5 => 22 + usize::from(bytes[17]),
        6 => 21 + long(9),
        7 => 17 + short(9) + short(11),
        _ => (0..long(1)).fold(9, |at, _| at + 18 + short(at + 16)) + 4,
    };
    &bytes[..length]
}
