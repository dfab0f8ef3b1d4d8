//! The walk over a model of a file instead of the library: the runs are given by their lengths, and
//! questions are counted.

use super::{Rooms, Source, Walk};
use crate::{Logical, Physical, Refusal, Run, Stored};

/// A file of runs that follow each other. Stored runs lie end to end in one volume, so that nothing
/// but the model knows where one ends and the next begins.
struct Model {
    ends: Vec<u64>,
    holes: bool,
    questions: usize,
}

impl Model {
    /// Every other run is a hole if `holes`, else all are stored.
    fn new(lens: &[u64], holes: bool) -> Model {
        let ends = lens.iter().scan(0, |end, len| {
            *end += len;
            Some(*end)
        });
        Model {
            ends: ends.collect(),
            holes,
            questions: 0,
        }
    }

    fn size(&self) -> u64 {
        self.ends.last().copied().unwrap_or(0)
    }

    /// All runs that have a position in the range, cut to it.
    fn cut(&self, from: u64, to: u64) -> Vec<Run> {
        let to = to.min(self.size());
        let first = self.ends.partition_point(|end| *end <= from);
        let mut runs = Vec::new();
        let mut at = from;
        for (index, end) in self.ends.iter().enumerate().skip(first) {
            if at >= to {
                break;
            }
            let end = to.min(*end);
            let place = Stored {
                volume: 3,
                offset: Physical(at),
            };
            runs.push(Run {
                start: Logical(at),
                len: end - at,
                stored: (!self.holes || index % 2 == 1).then_some(place),
            });
            at = end;
        }
        runs
    }
}

impl Source for &mut Model {
    fn ask(&mut self, from: u64, to: u64, out: &mut [u64]) -> Result<usize, Refusal> {
        self.questions += 1;
        let runs = self.cut(from, to);
        if out.len() < 5 * runs.len() {
            return Err(Refusal::new(17, 80));
        }
        for (run, numbers) in runs.iter().zip(out.chunks_mut(5)) {
            let (kind, place) = match run.stored {
                Some(place) => (1, (place.volume, place.offset.0)),
                None => (0, (0, 0)),
            };
            numbers.copy_from_slice(&[run.start.0, run.len, kind, place.0, place.1]);
        }
        Ok(runs.len())
    }
}

/// Walks a range and compares with the runs of the whole range; answers how many questions it took.
fn walk(model: &mut Model, from: u64, to: u64, rooms: Rooms) -> usize {
    let expected = model.cut(from, to);
    model.questions = 0;
    let walked: Result<Vec<Run>, Refusal> =
        Walk::new(&mut *model, Logical(from), Logical(to), rooms).collect();
    assert_eq!(walked.as_ref(), Ok(&expected));
    let full = rooms.larger.last().copied().unwrap_or(rooms.first);
    let bound = 130 * (2 * expected.len() / full + 1) + rooms.larger.len();
    let questions = model.questions;
    assert!(
        questions <= bound,
        "{questions} questions, at most {bound} expected"
    );
    questions
}

const SMALL: Rooms = Rooms {
    first: 2,
    larger: &[3, 8],
};

const MEDIUM: Rooms = Rooms {
    first: 64,
    larger: &[],
};

/// A sequence of numbers that look random and are the same in every run.
struct Numbers(u64);

impl Numbers {
    fn below(&mut self, limit: u64) -> u64 {
        self.0 ^= self.0 << 13;
        self.0 ^= self.0 >> 7;
        self.0 ^= self.0 << 17;
        self.0 % limit
    }
}

#[test]
fn a_range_that_fits_is_one_question() {
    let mut model = Model::new(&[3, 4], true);
    assert_eq!(walk(&mut model, 0, u64::MAX, SMALL), 1);
    assert_eq!(walk(&mut model, 1, 5, SMALL), 1);
}

#[test]
fn empty_ranges_are_asked_for_once() {
    let mut model = Model::new(&[3, 4], true);
    for (from, to) in [(0, 0), (5, 2), (7, 9), (u64::MAX, 0), (u64::MAX, u64::MAX)] {
        assert_eq!(walk(&mut model, from, to, SMALL), 1);
    }
    assert_eq!(walk(&mut Model::new(&[], false), 0, u64::MAX, SMALL), 1);
}

#[test]
fn more_room_comes_before_shorter_ranges() {
    let mut model = Model::new(&[1; 8], false);
    assert_eq!(walk(&mut model, 0, 8, SMALL), 3);
    assert_eq!(walk(&mut model, 0, 3, SMALL), 2);
}

#[test]
fn runs_of_one_length_take_few_questions() {
    for len in [1, 2, 10, 1 << 20, 1 << 40] {
        let mut model = Model::new(&vec![len; 10_000], false);
        let questions = walk(&mut model, 0, u64::MAX, MEDIUM);
        assert!(questions < 2 * 10_000 / 32 + 130, "{questions} for {len}");
    }
}

#[test]
fn a_long_hole_before_short_runs_is_passed() {
    let mut lens = Vec::new();
    for exponent in [10, 50, 30, 62, 20] {
        lens.push(1 << exponent);
        lens.extend([1; 99]);
    }
    for holes in [false, true] {
        walk(&mut Model::new(&lens, holes), 0, u64::MAX, SMALL);
        walk(&mut Model::new(&lens, holes), 1000, 1 << 61, SMALL);
    }
}

#[test]
fn the_largest_file_is_walked() {
    let mut model = Model::new(&[u64::MAX - 40, 1, 1, 1, 1, 1, 1, 1, 1, 1, 1, 30], true);
    assert_eq!(model.size(), u64::MAX);
    walk(&mut model, 0, u64::MAX, SMALL);
    walk(&mut model, u64::MAX - 41, u64::MAX, SMALL);
}

#[test]
fn random_files_and_ranges() {
    let mut numbers = Numbers(0x9E37_79B9_7F4A_7C15);
    for _ in 0..3000 {
        let count = numbers.below(60);
        let lens: Vec<u64> = (0..count)
            .map(|_| {
                let bits = numbers.below(24);
                1 + numbers.below(1 << bits)
            })
            .collect();
        let mut model = Model::new(&lens, numbers.below(2) == 0);
        let size = model.size() + 2;
        let (from, to) = (numbers.below(size), numbers.below(size));
        let larger: &[usize] = [&[][..], &[5], &[4, 7], &[12]][numbers.below(4) as usize];
        let first = 4 + numbers.below(2) as usize;
        let rooms = Rooms { first, larger };
        walk(&mut model, from, to, rooms);
        walk(&mut model, from.min(to), from.max(to), rooms);
        walk(&mut model, 0, u64::MAX, rooms);
    }
}

/// A source that refuses everything with one number.
struct Refusing(u64);

impl Source for Refusing {
    fn ask(&mut self, _: u64, _: u64, _: &mut [u64]) -> Result<usize, Refusal> {
        Err(Refusal::new(self.0, 80))
    }
}

#[test]
fn a_refusal_is_the_only_item() {
    for number in [2, 16, 17] {
        let mut walk = Walk::new(Refusing(number), Logical(0), Logical(u64::MAX), SMALL);
        assert_eq!(walk.next().map(|run| run.unwrap_err().number), Some(number));
        assert!(walk.next().is_none());
        assert!(walk.next().is_none());
    }
}
