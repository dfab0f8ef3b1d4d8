//! The inputs of the benchmarks are what they claim to be.

use generator::bench::{
    archive, archive_extent, archive_volume, copies, data_blocks, inodes, inputs, last_names,
    lengths, neighbours, torn_inputs, tree_inputs, Order, COPIED, COPIES, COPIES_OFFSET, ROOT,
    SHORT,
};
use independent::{check, lookup, pair, read_header, repair, run_count, sha256, tree};
use independent::{Bookmark, Pair, Place, Refusal, Verdict, VOLUME_LIMIT};

#[test]
fn all_are_accepted_and_full() {
    for input in inputs() {
        assert_eq!(input.volume.len(), VOLUME_LIMIT, "{}", input.name);
        let verdict = check(&input.volume);
        assert!(
            matches!(verdict, Verdict::Accepted { .. }),
            "{} {verdict:?}",
            input.name
        );
    }
}

fn blocks(volume: &[u8]) -> u64 {
    match check(volume) {
        Verdict::Accepted { blocks, .. } => blocks,
        refused => panic!("{refused:?}"),
    }
}

/// The last block takes what is left over.
#[test]
fn data_blocks_have_the_size_that_is_asked_for() {
    for size in [100, 1_000] {
        let volume = data_blocks(VOLUME_LIMIT, size);
        let list = generator::image::blocks(&volume);
        assert_eq!(list.len() as u64, blocks(&volume));
        let (last, others) = list.split_last().expect("a block");
        assert!(others.iter().all(|block| block.len() == size));
        assert!((21..21 + size).contains(&last.len()));
    }
}

#[test]
fn short_volumes_are_accepted_and_have_their_length() {
    for length in SHORT {
        let one = data_blocks(length, length);
        assert_eq!(one.len(), length);
        assert_eq!(blocks(&one), u64::from(length > 80));
        let many = data_blocks(length, 40);
        assert_eq!(many.len(), length);
        assert_eq!(blocks(&many), (length as u64 - 80) / 40);
    }
}

/// Each has one byte at fault, in its last name, and its checksum is right.
#[test]
fn only_the_last_name_is_at_fault() {
    let mut names = Vec::new();
    for input in last_names() {
        assert_eq!(input.sound.len(), VOLUME_LIMIT, "{}", input.name);
        let sound = check(&input.sound);
        let Verdict::Accepted { blocks, .. } = sound else {
            panic!("{} {sound:?}", input.name);
        };
        let Verdict::Refused {
            refusal,
            offset,
            blocks: before,
        } = check(&input.bad)
        else {
            panic!("{} is accepted", input.name);
        };
        let told = Refusal::not_text(input.fault.text, input.fault.start);
        assert_eq!((refusal, offset), (told, input.offset));
        let pairs = input.sound.iter().zip(&input.bad);
        assert!(pairs.filter(|(one, two)| one != two).count() <= 1 + 4);
        names.push((blocks, before, input.fault.text, input.fault.start));
    }
    // A data block stands before the links, and another one behind the table.
    let expected = [(167_772, 167_771, 0, 68), (2, 0, 4_095, 4_076)];
    assert_eq!(names, expected);
}

/// Both end too early: one behind all blocks but the last, one at once.
#[test]
fn torn_volumes_are_cut_at_the_end_or_damaged_at_the_beginning() {
    let mut told = Vec::new();
    for input in torn_inputs() {
        let refusal = Refusal::of(2);
        let Verdict::Refused {
            refusal: first,
            offset,
            blocks,
        } = check(&input.volume)
        else {
            panic!("{} is accepted", input.name);
        };
        assert_eq!((first, offset), (refusal, input.kept), "{}", input.name);
        assert_eq!(repair(&input.volume), Ok(input.kept), "{}", input.name);
        told.push((input.volume.len(), input.kept, blocks));
    }
    // Blocks of 1,000 bytes, and one for the last 136.
    let all_but_one = 80 + 1_000 * 16_777;
    let cut = all_but_one as usize + 68;
    let expected = [(cut, all_but_one, 16_777), (VOLUME_LIMIT, 80, 0)];
    assert_eq!(told, expected);
}

/// Each is listed into just as much room as its lines need.
#[test]
fn trees_have_the_lines_that_they_claim() {
    let mut told = Vec::new();
    for input in tree_inputs() {
        assert_eq!(blocks(&input.volume), 1, "{}", input.name);
        let stated = u64::from_le_bytes(input.volume[81..89].try_into().expect("eight bytes"));
        assert_eq!(stated, input.links, "{}", input.name);
        let mut room = vec![0; 2 * input.lines as usize];
        let mark = Bookmark::at(80);
        let lines = tree(&input.volume, mark, ROOT, &mut room);
        assert_eq!(lines, Ok(input.lines), "{}", input.name);
        let deepest = room.iter().step_by(2).max();
        assert_eq!(deepest, Some(&input.deepest), "{}", input.name);
        room.pop();
        let short = tree(&input.volume, mark, ROOT, &mut room);
        assert_eq!(short, Err(Refusal::of(17)), "{}", input.name);
        told.push((input.links, input.lines));
    }
    let expected = [(4_096, 4_096), (32, 32), (4_096, 4_096), (44, 1_000_000)];
    assert_eq!(told, expected);
}

#[test]
fn files_can_be_looked_up() {
    for order in [Order::Rising, Order::Falling, Order::Shuffled] {
        let volume = inodes(order);
        let stored = Place::Stored {
            volume: 3,
            offset: 80 + 128 * 3 + 5,
        };
        assert_eq!(lookup(&volume, 80, &lengths(), 300), Ok(stored));
        assert_eq!(lookup(&volume, 80, &lengths(), 390), Ok(Place::Hole));
        // Each extent with the hole after it; three copies in every second.
        let count = run_count(&volume, 80, &lengths(), 0, u64::MAX);
        assert_eq!(count, Ok(512 * (1 + 3) + 1_024));
    }
}

/// The volumes at both ends and in the middle stand for all forty.
#[test]
fn the_archive_is_a_set_of_full_volumes() {
    assert_eq!(archive().len(), 40);
    for sequence in [0, 1, 38, 39] {
        let volume = archive_volume(sequence);
        assert_eq!(volume.len(), VOLUME_LIMIT);
        let header = read_header(&volume).expect("a sound header");
        assert_eq!((header.sequence, header.id), (sequence, &[7; 16]));
        assert!(matches!(check(&volume), Verdict::Accepted { .. }));
    }
}

#[test]
fn neighbours_are_full_and_follow_on_each_other() {
    let [first, second] = neighbours(|bytes| sha256(bytes).expect("at most 16 MiB"));
    assert_eq!([first.len(), second.len()], [VOLUME_LIMIT; 2]);
    assert_eq!(pair(&first, &second), Pair::default());
}

#[test]
fn the_file_of_the_archive_goes_through_twenty_volumes() {
    let last = archive_volume(39);
    let lengths = [VOLUME_LIMIT as u64; 40].map(u64::to_le_bytes).concat();
    let inode = 80 + 40;
    let mut volumes = std::collections::BTreeSet::new();
    for k in 0..1_024 {
        let extent = archive_extent(k);
        assert_eq!(extent.volume, k % 20 * 2);
        let stored = |more| Place::Stored {
            volume: extent.volume,
            offset: extent.start + more,
        };
        let at = |position| lookup(&last, inode, &lengths, position);
        assert_eq!(at(4_096 * k), Ok(stored(0)));
        assert_eq!(at(4_096 * k + 4_095), Ok(stored(4_095)));
        volumes.insert(extent.volume);
    }
    assert_eq!(volumes.len(), 20);
    let count = run_count(&last, inode, &lengths, 0, u64::MAX);
    assert_eq!(count, Ok(1_024));
}

#[test]
fn each_copy_is_a_run() {
    let volume = copies();
    assert_eq!(blocks(&volume), 2);
    let lengths = (volume.len() as u64).to_le_bytes();
    let count = run_count(&volume, COPIES_OFFSET, &lengths, 0, u64::MAX);
    assert_eq!(count, Ok(COPIES));
    let stored = Place::Stored {
        volume: 0,
        offset: 97,
    };
    let last = lookup(&volume, COPIES_OFFSET, &lengths, COPIES - 1);
    assert_eq!(last, Ok(stored));
    assert_eq!(volume[97], COPIED);
}
