//! The library with little room, so that files are asked for piece by piece, against the library
//! with much room, in one call.

use super::support::{file, header, random_extents, Numbers};
use super::*;
use crate::{sys, Lengths};

const LITTLE: Rooms = Rooms {
    first: 1,
    larger: &[4, 5],
};

fn rows(runs: impl Iterator<Item = Result<Run, Refusal>>) -> Vec<[u64; 5]> {
    let row = |run: Run| match run.stored {
        None => [run.start.0, run.len, sys::HOLE, 0, 0],
        Some(place) => {
            let offset = place.offset.0;
            [run.start.0, run.len, sys::STORED, place.volume, offset]
        }
    };
    runs.map(|run| row(run.unwrap())).collect()
}

/// All the runs of a range, by one call.
fn in_one_call(volume: &[u8], lengths: &Lengths, from: u64, to: u64) -> Vec<[u64; 5]> {
    let mut out = vec![0; 5 * 2000];
    let answer = sys::runs(volume, 80, lengths.as_bytes(), from, to, &mut out);
    assert_eq!(answer.refusal, 0);
    let runs = out.chunks(5).take(answer.count as usize);
    runs.map(|numbers| numbers.try_into().unwrap()).collect()
}

#[test]
fn pieces_give_the_same_as_one_call() {
    let mut numbers = Numbers(0xDEAD_BEEF_CAFE_F00D);
    let lengths: Lengths = [1 << 40, 1 << 40].into_iter().collect();
    for _ in 0..300 {
        let (extents, end) = random_extents(&mut numbers);
        let size = numbers.below(end + 100);
        let volume = [header(0), file(1, 7, size, &extents)].concat();
        for _ in 0..3 {
            let (from, to) = (numbers.below(end + 10), numbers.below(end + 110));
            let expected = in_one_call(&volume, &lengths, from, to);
            let file = File::new(&volume, 80, &lengths);
            let (from, to) = (Logical(from), Logical(to));
            assert_eq!(rows(Walk::new(file, from, to, LITTLE)), expected);
            assert_eq!(rows(file.runs(from, to)), expected);
        }
    }
}
