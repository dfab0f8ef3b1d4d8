//! Positions and runs of files, and fetching.

mod support;

use hdrfs::{fetch, sys, File, Lengths, Logical, Physical, Place, Refusal, Run, Stored, Volume};
use support::{
    data, file, header, inode, random_extents, repeated_extent, small_volume, table, Extent,
    Numbers, FOLDER, REPEATED,
};

/// A volume with one inode block, at 80, and the answer of a walk over all its runs.
fn with_file(size: u64, extents: &[Extent]) -> Vec<u8> {
    [header(0), file(1, 7, size, extents)].concat()
}

fn lengths(entries: &[u64]) -> Lengths {
    entries.iter().copied().collect()
}

/// Runs as rows of five numbers.
fn rows(runs: impl Iterator<Item = Result<Run, Refusal>>) -> Result<Vec<[u64; 5]>, Refusal> {
    let row = |run: Run| match run.stored {
        None => [run.start.0, run.len, 0, 0, 0],
        Some(place) => [run.start.0, run.len, 1, place.volume, place.offset.0],
    };
    runs.map(|run| run.map(row)).collect()
}

fn refused(number: u64, offset: u64) -> Refusal {
    Refusal::new(number, offset)
}

#[test]
fn the_samples_of_the_rules() {
    let table = lengths(&[104]);
    let volume = with_file(3, &[Extent::once(0, 97, 3, 0)]);
    let simple = File::new(&volume, 80, &table);
    assert_eq!(rows(simple.all_runs()), Ok(vec![[0, 3, 1, 0, 97]]));
    assert_eq!(simple.position(Logical(3)), Ok(Place::PastEnd));

    let short = Extent {
        post: 2,
        ..Extent::once(0, 97, 3, 0)
    };
    let volume = with_file(3, &[short]);
    let cut = File::new(&volume, 80, &table).runs(Logical(0), Logical(3));
    assert_eq!(rows(cut), Ok(vec![[0, 1, 1, 0, 97], [1, 2, 0, 0, 0]]));

    let volume = with_file(14, &[repeated_extent()]);
    let repeated = File::new(&volume, 80, &table).all_runs();
    let expected = vec![
        [0, 4, 0, 0, 0],
        [4, 2, 1, 0, 98],
        [6, 3, 1, 0, 97],
        [9, 2, 1, 0, 97],
        [11, 3, 0, 0, 0],
    ];
    assert_eq!(rows(repeated), Ok(expected));
}

#[test]
fn the_room_is_asked_for_exactly() {
    let volume = with_file(14, &[repeated_extent()]);
    let table = lengths(&[104]);
    let mut out = [9; 26];
    let answer = sys::runs(&volume, 80, table.as_bytes(), 0, 14, &mut out[..24]);
    assert_eq!((answer.refusal, answer.count), (17, 0));
    assert_eq!(out, [9; 26]);
    let answer = sys::runs(&volume, 80, table.as_bytes(), 0, 14, &mut out);
    assert_eq!((answer.refusal, answer.count, out[25]), (0, 5, 9));
}

#[test]
fn lookups_are_refused() {
    let volume = with_file(3, &[Extent::once(1, 97, 3, 0)]);
    let ask = |entries: &[u64], offset| {
        let table = lengths(entries);
        let file = File::new(&volume, offset, &table);
        let fault = file.position(Logical(0)).unwrap_err();
        assert_eq!(file.position(Logical(99)), Err(fault));
        assert_eq!(rows(file.all_runs()), Err(fault));
        assert_eq!(rows(file.runs(Logical(5), Logical(2))), Err(fault));
        assert_eq!(file.all_runs().count(), 1);
        fault
    };
    assert_eq!(ask(&[104], 80), refused(16, 80));
    assert_eq!(ask(&[104, 99], 80), refused(16, 80));
    assert_eq!(ask(&vec![104; 4097], 80), refused(9, 80));
    assert_eq!(ask(&[], 79), refused(8, 79));
    assert_eq!(
        ask(&[], volume.len() as u64),
        refused(2, volume.len() as u64)
    );
    assert_eq!(ask(&[], u64::MAX), refused(2, u64::MAX));
    assert!(File::new(&volume, 80, &lengths(&[0, 100]))
        .position(Logical(0))
        .is_ok());
}

#[test]
fn only_regular_files_are_looked_up() {
    let volume = [
        header(1),
        table(&[]),
        inode(1, 7, FOLDER, 70, &[]),
        data(2, b"x"),
    ]
    .concat();
    let lengths = Lengths::new();
    let fault = |offset| {
        File::new(&volume, offset, &lengths)
            .position(Logical(0))
            .unwrap_err()
    };
    assert_eq!(fault(80), refused(8, 80));
    assert_eq!(fault(93), refused(15, 93));
    assert_eq!(fault(93 + 75), refused(15, 93 + 75));
}

#[test]
fn lengths_that_are_no_whole_entries() {
    let volume = with_file(0, &[]);
    for len in [1, 7, 9] {
        assert_eq!(sys::lookup_refusal(&volume, 80, &vec![0; len], 0), 9);
    }
}

#[test]
fn neighbouring_extents_are_not_joined() {
    // They lie end to end in the file and in the volume, more of them than there is room for at
    // first.
    let extents: Vec<Extent> = (0..200)
        .map(|i| Extent::once(0, 100 + 2 * i, 2, 2 * i))
        .collect();
    let volume = with_file(400, &extents);
    let expected = (0..200).map(|i| [2 * i, 2, 1, 0, 100 + 2 * i]).collect();
    let table = lengths(&[500]);
    assert_eq!(
        rows(File::new(&volume, 80, &table).all_runs()),
        Ok(expected)
    );
}

#[test]
fn many_copies_are_walked_piece_by_piece() {
    // Copies of one byte, so that every position is a run of its own.
    let copies = Extent {
        multiplicity: REPEATED,
        count: 200_000,
        ..Extent::once(0, 97, 1, 1 << 40)
    };
    let volume = with_file(u64::MAX, &[copies]);
    let table = lengths(&[104]);
    let found = rows(File::new(&volume, 80, &table).all_runs()).unwrap();
    assert_eq!(found.len(), 200_002);
    assert_eq!(found[0], [0, 1 << 40, 0, 0, 0]);
    assert!(found[1..200_001]
        .iter()
        .zip(1 << 40..)
        .all(|(row, at)| *row == [at, 1, 1, 0, 97]));
    let end = (1 << 40) + 200_000;
    assert_eq!(found[200_001], [end, u64::MAX - end, 0, 0, 0]);
}

#[test]
fn a_file_with_more_runs_than_can_be_counted_begins_at_once() {
    let copies = Extent {
        multiplicity: REPEATED,
        count: u64::MAX,
        ..Extent::once(0, 97, 1, 0)
    };
    let volume = with_file(u64::MAX, &[copies]);
    let table = lengths(&[104]);
    let found = File::new(&volume, 80, &table).all_runs().take(10_000);
    assert!(found
        .zip(0..)
        .all(|(run, at)| run.unwrap().start == Logical(at)));
}

#[test]
fn positions_agree_with_runs_and_with_the_single_numbers() {
    let mut numbers = Numbers(0x0BAD_5EED_0BAD_5EED);
    let table = lengths(&[1 << 40, 1 << 40, 1 << 40]);
    for _ in 0..100 {
        let (extents, end) = random_extents(&mut numbers);
        let size = numbers.below(end + 100);
        let volume = with_file(size, &extents);
        let file = File::new(&volume, 80, &table);
        let runs: Vec<Run> = file.all_runs().collect::<Result<_, _>>().unwrap();
        for _ in 0..20 {
            let at = numbers.below(size + 10);
            let run = runs
                .iter()
                .find(|run| (run.start.0..run.end().0).contains(&at));
            let expected = match run {
                None => Place::PastEnd,
                Some(Run { stored: None, .. }) => Place::Hole,
                Some(Run {
                    stored: Some(place),
                    start,
                    ..
                }) => Place::Stored(Stored {
                    volume: place.volume,
                    offset: Physical(place.offset.0 + (at - start.0)),
                }),
            };
            assert_eq!(file.position(Logical(at)), Ok(expected));
            compare_numbers(&volume, table.as_bytes(), at);
        }
    }
}

/// The lookup in one call and its parts.
fn compare_numbers(volume: &[u8], lengths: &[u8], at: u64) {
    let place = sys::lookup(volume, 80, lengths, at);
    assert_eq!(place.refusal, sys::lookup_refusal(volume, 80, lengths, at));
    assert_eq!(place.kind, sys::lookup_kind(volume, 80, lengths, at));
    assert_eq!(place.volume, sys::lookup_volume(volume, 80, lengths, at));
    assert_eq!(place.offset, sys::lookup_offset(volume, 80, lengths, at));
}

#[test]
fn fetch_hands_out_a_part_of_either_volume() {
    let (first, second) = (
        small_volume(),
        [header(1), table(&[]), data(1, b"2,5")].concat(),
    );
    let part = fetch(&first, &second, 0, Physical(97), 3).unwrap();
    assert_eq!(part.as_ptr(), first[97..].as_ptr());
    let part = fetch(&first, &second, 1, Physical(93), 24).unwrap();
    assert_eq!(part.as_ptr(), second[93..].as_ptr());
    let twin = small_volume();
    let part = fetch(&twin, &first, 0, Physical(0), 104).unwrap();
    assert_eq!(part.as_ptr(), twin.as_ptr());
    assert_eq!(fetch(&first, &second, 0, Physical(104), 0), Ok(&[][..]));
}

#[test]
fn fetch_is_refused() {
    let (first, second) = (small_volume(), [header(1), table(&[])].concat());
    let ask =
        |number, offset, len| fetch(&first, &second, number, Physical(offset), len).unwrap_err();
    assert_eq!(ask(2, 97, 3), refused(16, 97));
    assert_eq!(ask(0, 97, 8), refused(16, 97));
    assert_eq!(ask(0, 105, 0), refused(16, 105));
    assert_eq!(ask(0, u64::MAX, u64::MAX), refused(16, u64::MAX));
    assert_eq!(fetch(&first, &[], 0, Physical(97), 3), Err(refused(2, 0)));
    assert_eq!(fetch(&[], &second, 1, Physical(80), 3), Err(refused(2, 0)));
}

#[test]
fn lengths_take_numbers_below_4096() {
    let mut lengths = Lengths::new();
    assert_eq!(lengths.set(2, 5), Ok(()));
    assert_eq!(lengths.set(4095, 0x0102), Ok(()));
    assert_eq!(lengths.as_bytes().len(), 8 * 4096);
    assert_eq!(lengths.as_bytes()[8 * 4095..], [2, 1, 0, 0, 0, 0, 0, 0]);
    for number in [4096, u64::MAX] {
        assert_eq!(lengths.set(number, 5), Err(refused(9, 0)));
    }
    assert_eq!(lengths.set(2, 6), Ok(()));
    assert_eq!(lengths.as_bytes()[16..24], [6, 0, 0, 0, 0, 0, 0, 0]);
}

#[test]
fn the_answer_does_not_depend_on_the_thread() {
    let volume = small_volume();
    std::thread::scope(|scope| {
        for _ in 0..4 {
            scope.spawn(|| assert_eq!(Volume::check(&volume).unwrap().block_count(), 1));
        }
    });
}
