//! Trees of link tables: the numbers in a list that is lent, and the lines that Rust programs get.

mod lines;

use generator::tree::{Answer, Tree};
use generator::Case;
use hdrfs::sys;
use independent::links::Links;
use independent::refusal::{NO_ROOM, TOO_DEEP};
use independent::{Body, Bookmark, Reading, Refusal};

use crate::answers::{self, Told};
use crate::blocks::yes;
use crate::case::bookmark;
use crate::difference::{same, same_list, Difference};
use crate::lent::Lent;
use crate::tally::Trees;
use crate::texts::Texts;

/// The most numbers that are lent: as many as there are where no limit is given for Rust types.
const MOST: usize = 2 * hdrfs::Tree::MAX_LINES;

/// How many roots are asked for where the making says none.
const ROOTS: usize = 3;

/// A table, and the folder whose tree is asked for.
#[derive(Clone, Copy, Debug)]
pub struct Asked<'a> {
    pub volume: &'a [u8],
    /// Whether it says that a table is due makes no difference.
    pub mark: Bookmark,
    pub root: u64,
    /// Picks what to pass where different numbers mean the same.
    pub odd: u64,
}

/// A list that both left alike, and what both answered.
struct Listed {
    answer: sys::Lines,
    list: Lent,
}

impl<'a> Asked<'a> {
    /// The tree in a list with room for so many numbers. All behind the lines has to be as it was, and
    /// so has the whole list where the answer is a refusal, which has no lines.
    fn list(&self, room: usize) -> Result<Listed, Difference> {
        let (mut list, mut second) = (Lent::new(room), Lent::new(room));
        let answer = self.ask_proved(list.list());
        let expected = answers::lines(self.ask_independent(second.list()));
        let question = || self.question(room);
        same(answer, expected, question)?;
        let filled = 2 * expected.lines as usize;
        same_list(list.first(filled), second.first(filled), question)?;
        let kept = (list.kept_beyond(filled), second.kept_beyond(filled));
        same(kept, (true, true), || question() + ", the rest is kept")?;
        Ok(Listed { answer, list })
    }

    /// A table has no time, so the last time before it makes no difference either.
    fn ask_proved(&self, out: &mut [u64]) -> sys::Lines {
        let Bookmark {
            offset,
            last,
            number,
            ..
        } = self.mark;
        let timed = yes(last.is_some(), self.odd);
        let last = last.unwrap_or(self.odd);
        sys::tree(self.volume, offset, timed, last, number, self.root, out)
    }

    fn ask_independent(&self, out: &mut [u64]) -> Result<u64, Refusal> {
        independent::tree(self.volume, self.mark, self.root, out)
    }

    fn question(&self, room: usize) -> String {
        format!("tree of {} at {:?}, room {room}", self.root, self.mark)
    }

    /// The bookmark with a table due.
    fn due(&self) -> Bookmark {
        Bookmark {
            due: true,
            ..self.mark
        }
    }

    /// The bytes of the links, if the table is read.
    fn links(&self) -> Result<&'a [u8], Refusal> {
        match independent::read(self.volume, self.due())? {
            Reading::Block(block, _) => match block.body {
                Body::Table { links, .. } => Ok(links.bytes),
                other => unreachable!("{other:?} where a table is due"),
            },
            Reading::End => unreachable!("an end where a table is due"),
        }
    }

    /// The least room in which the answer is not that there is too little, if so much is ever lent.
    fn enough(&self) -> Option<usize> {
        let answer = |room: usize| self.ask_independent(&mut vec![0; room]);
        match answer(MOST) {
            Ok(lines) => Some(2 * lines as usize),
            Err(NO_ROOM) => None,
            Err(TOO_DEEP) => Some(first(MOST, |room| answer(room) == Err(TOO_DEEP))),
            // The table is refused, whatever the room.
            Err(_) => Some(0),
        }
    }

    /// All numbers of all answers, with every room that is named and those around what is just enough.
    fn compare(
        &self,
        named: &[usize],
        made: Option<&Tree>,
        tally: &mut Seen,
    ) -> Result<(), Difference> {
        let enough = self.enough();
        let mut rooms = named.to_vec();
        rooms.extend(enough.into_iter().flat_map(around));
        rooms.sort_unstable();
        rooms.dedup();
        for room in rooms {
            let listed = self.list(room)?;
            let answer = listed.answer;
            if let Some(answer) = made.and_then(|made| made.answer(room)) {
                as_made(&listed, answer).map_err(|told| told.of(&self.question(room)))?;
                tally.made += 1;
            }
            let is_short = enough.is_none_or(|enough| room < enough);
            same(answer.told() == NO_ROOM, is_short, || {
                self.question(room) + ", too little room"
            })?;
            tally.note(&answer);
        }
        let limits = enough.map_or(vec![0, 40], |enough| around(enough / 2));
        lines::compare(self, &limits, &mut tally.numbers)
    }
}

/// A number, the two before it and the two behind it.
fn around(number: usize) -> Vec<usize> {
    (number.saturating_sub(2)..=number + 2).collect()
}

/// The first number up to the last one that is enough, where all behind it are and none before it is.
fn first(last: usize, is_enough: impl Fn(usize) -> bool) -> usize {
    let (mut low, mut high) = (0, last);
    while low < high {
        let middle = low + (high - low) / 2;
        if is_enough(middle) {
            high = middle;
        } else {
            low = middle + 1;
        }
    }
    low
}

/// The answer that the making of the tree fixes.
fn as_made(listed: &Listed, made: Answer<'_>) -> Result<(), Difference> {
    let (told, lines) = match made {
        Answer::Lines(lines) => (Ok(lines.len() as u64), lines),
        Answer::Refused { number, fault } => {
            let refusal = Refusal {
                number,
                text: fault.text,
                start: fault.start,
            };
            (Err(refusal), &[][..])
        }
    };
    let question = || "tree against the making".into();
    same(listed.answer, answers::lines(told), question)?;
    let numbers = lines.as_flattened();
    same_list(listed.list.first(numbers.len()), numbers, question)
}

/// What was compared.
#[derive(Clone, Debug, Default)]
pub struct Seen {
    pub numbers: Trees,
    /// Texts at fault.
    pub texts: Texts,
    /// Answers that the making of the tree fixes.
    pub made: u64,
    /// Lines in lists.
    pub lines: u64,
}

impl Seen {
    /// Counts what both answered to one listing.
    fn note(&mut self, answer: &sys::Lines) {
        self.numbers.tree[answer.refusal as usize] += 1;
        self.texts.note(answer.told());
        self.lines += answer.lines;
    }

    /// Adds the counts of another.
    pub fn add(&mut self, other: &Seen) {
        self.numbers.add(&other.numbers);
        self.texts.add(&other.texts);
        self.made += other.made;
        self.lines += other.lines;
    }
}

/// Compares all that can be asked of a generated tree.
pub fn compare(made: &Tree, seen: &mut Seen) -> Result<(), Difference> {
    let asked = Asked {
        volume: &made.volume,
        mark: bookmark(&made.mark),
        root: made.root,
        odd: made.seed,
    };
    asked.compare(&made.rooms, Some(made), seen)?;
    lines::first_table(&made.volume, made.root, &mut seen.numbers)
}

/// The same by each bookmark of a case, most of which are at no table.
pub fn of_case(case: &Case, seen: &mut Seen) -> Result<(), Difference> {
    for (place, mark) in case.bookmarks.iter().enumerate() {
        let asked = Asked {
            volume: &case.volume,
            mark: bookmark(mark),
            root: 0,
            odd: case.seed.wrapping_add(place as u64),
        };
        for root in roots(&asked) {
            Asked { root, ..asked }.compare(&[0, 1, 40], None, seen)?;
        }
    }
    lines::first_table(&case.volume, 1, &mut seen.numbers)
}

/// The parents of the first links, if the table has any.
fn roots(asked: &Asked<'_>) -> Vec<u64> {
    let links = Links::new(asked.links().unwrap_or_default());
    let mut roots: Vec<u64> = links.map(|link| link.parent).take(ROOTS).collect();
    roots.sort_unstable();
    roots.dedup();
    if roots.is_empty() {
        roots.push(1);
    }
    roots
}

#[cfg(test)]
mod tests {
    use super::{around, first};

    #[test]
    fn the_first_that_is_enough() {
        for last in [0, 1, 2, 7, 64] {
            for from in 0..=last {
                assert_eq!(first(last, |number| number >= from), from);
            }
        }
    }

    #[test]
    fn no_number_is_below_0() {
        assert_eq!(around(5), [3, 4, 5, 6, 7]);
        assert_eq!(around(1), [0, 1, 2, 3]);
    }
}
