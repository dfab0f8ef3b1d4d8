//! Lists of appends, refused ones included: answers and buffers of both are the same after each, and
//! what was written is a volume that both accept where no table is due.
#![forbid(unsafe_code)]

use compare::blocks;
use compare::requests::{request, Request};
use compare::seeds::{Seeds, USUAL};
use compare::tally::Numbers;
use compare::texts::{Texts, FEW};
use compare::writing::{append, header, made_up, refusal_from_0, refusal_with_sound_texts};
use generator::number::FULL;
use generator::rng::Rng;
use generator::time;
use hdrfs::sys;
use independent::refusal::LARGEST;
use independent::{Bookmark, Refusal};

/// The numbers that an append can give, and those that the header writer can.
const APPEND: [usize; 10] = [0, 1, 8, 9, 10, 11, 12, 13, 14, 17];
const HEADER: [usize; 4] = [0, 6, 11, 17];

#[derive(Default)]
struct Counts {
    append: Numbers,
    header: Numbers,
    /// Blocks accepted at the last time before them, and blocks refused since their time is one
    /// lower. First those of lists, then those at made-up bookmarks.
    equal: [u64; 2],
    one_lower: [u64; 2],
    /// Answers at the largest number, by the kind of request.
    full: [Numbers; 8],
    /// What would have been told in place of 9 if there were another number.
    instead: Numbers,
    /// Lists with blocks up to the largest number.
    filled: u64,
    /// Texts at fault, by the kind of request, and which of them are, as in [`PLACES`].
    texts: [Texts; 8],
    places: [u64; 7],
    /// What was told of a request with a text at fault, and what would have been told in place of 10
    /// if all texts were sound.
    faulty: Numbers,
    sound: Numbers,
}

/// Which texts are at fault where an append is refused for one.
const PLACES: [&str; 7] = [
    "the old path",
    "the new path",
    "both paths",
    "the first of several links",
    "the last of several links",
    "a link between",
    "several links",
];

impl Counts {
    fn note(&mut self, kind: usize, mark: Bookmark, time: Option<u64>, number: u64) {
        self.append[number as usize] += 1;
        let (Some(last), Some(time)) = (mark.last, time) else {
            return;
        };
        self.equal[kind] += u64::from(number == 0 && time == last);
        let one_lower = time.checked_add(1) == Some(last);
        self.one_lower[kind] += u64::from(number == 14 && one_lower);
    }

    /// Notes an append that is refused for a text; nothing was written to the buffer.
    fn note_text(&mut self, buffer: &[u8], mark: Bookmark, asked: &Request, refusal: Refusal) {
        self.texts[asked.kind()].note(refusal);
        self.sound[refusal_with_sound_texts(buffer, mark, asked) as usize] += 1;
        let (texts, faulty) = asked.faulty();
        let is_between = faulty[0] > 0 && faulty[0] + 1 < texts;
        let place = match asked {
            Request::Rename(..) if faulty == [0] => 0,
            Request::Rename(..) if faulty == [1] => 1,
            Request::Rename(..) => 2,
            Request::Table(..) if faulty.len() > 1 => 6,
            Request::Table(..) if texts == 1 => return,
            Request::Table(..) if faulty == [0] => 3,
            Request::Table(..) if !is_between => 4,
            Request::Table(..) => 5,
            _ => return,
        };
        self.places[place] += 1;
    }

    /// Notes an answer at the largest number; nothing was written to the buffer.
    fn note_full(&mut self, buffer: &[u8], mark: Bookmark, asked: &Request, number: u64) {
        self.full[asked.kind()][number as usize] += 1;
        if number == 9 {
            self.instead[refusal_from_0(buffer, mark, asked) as usize] += 1;
        }
    }
}

/// Changes the time, if the request has one, to one that mostly may follow, so that lists get long.
/// Answers it.
fn set_time(rng: &mut Rng, last: Option<u64>, request: &mut Request) -> Option<u64> {
    let time = request.time_mut()?;
    match (rng.below(8), last) {
        (0, _) => {}
        (1, Some(last @ 1..)) => *time = time::lower(rng, last),
        _ => *time = time::following(rng, last),
    }
    Some(*time)
}

fn headers(rng: &mut Rng, counts: &mut Counts) -> Result<(), String> {
    let room = rng.index(120);
    let mut buffer = rng.bytes(room);
    let (id, previous) = (rng.pick(&[15, 16, 16, 17]), rng.pick(&[31, 32, 32, 33]));
    let (id, mut previous) = (rng.bytes(id), rng.bytes(previous));
    if rng.once_in(2) {
        previous.fill(0);
    }
    let sequence = rng.below(2);
    let refusal = header(&mut buffer, &id, sequence, &previous).map_err(|d| d.to_string())?;
    counts.header[refusal.number as usize] += 1;
    Ok(())
}

/// One append, first of a list or then at a made-up bookmark. Answers the bookmark after it.
fn ask(
    counts: &mut Counts,
    kind: usize,
    buffer: &mut [u8],
    mark: Bookmark,
    asked: &mut Request,
) -> Result<Bookmark, String> {
    let time = asked.time_mut().copied();
    let (refusal, next) = append(buffer, mark, asked).map_err(|d| d.to_string())?;
    let number = refusal.number;
    counts.note(kind, mark, time, number);
    let (_, faulty) = asked.faulty();
    if !faulty.is_empty() {
        counts.faulty[number as usize] += 1;
    }
    if number == 10 {
        counts.note_text(buffer, mark, asked, refusal);
    }
    if mark.number == FULL {
        counts.note_full(buffer, mark, asked, number);
    }
    Ok(next)
}

/// A list of appends, each tried at a made-up bookmark too. Some come to the largest number.
fn list(rng: &mut Rng, counts: &mut Counts) -> Result<(), String> {
    let sequence = rng.below(3);
    let room = 80 + rng.index(4_000);
    let mut buffer = rng.bytes(room);
    let previous = [(sequence > 0) as u8; 32];
    header(&mut buffer, &[7; 16], sequence, &previous).map_err(|d| d.to_string())?;
    let first = match rng.below(4) {
        0 => FULL - rng.below(8),
        _ => 0,
    };
    let mut mark = Bookmark {
        due: sequence > 0,
        ..Bookmark::at(80).numbered(first)
    };
    for _ in 0..rng.below(30) {
        let mut asked = request(rng);
        let time = set_time(rng, mark.last, &mut asked);
        mark = ask(counts, 0, &mut buffer, mark, &mut asked)?;
        let elsewhere = made_up(rng, room, time);
        ask(counts, 1, &mut buffer.clone(), elsewhere, &mut asked)?;
    }
    if !mark.due {
        let volume = &buffer[..mark.offset as usize];
        let blocks = mark.number - first;
        let checked = sys::check(volume);
        let told = (checked.refusal, checked.offset, checked.blocks);
        assert_eq!(told, (0, mark.offset, blocks));
        let read = blocks::read(volume, mark, 0).map_err(|d| d.to_string())?;
        assert_eq!(read.end, 1);
        counts.filled += u64::from(mark.number == FULL && blocks > 0);
    }
    Ok(())
}

fn sum(counted: &[Counts], of: impl Fn(&Counts) -> u64) -> u64 {
    counted.iter().map(of).sum()
}

#[test]
fn appends_agree() {
    let asked = Seeds::asked();
    let counted = asked.each(|seed, counts: &mut Counts| {
        let mut rng = Rng::new(seed);
        headers(&mut rng, counts)?;
        list(&mut rng, counts).map_err(|told| format!("seed {seed}: {told}"))
    });
    let counted = counted.unwrap_or_else(|told| panic!("{told}"));
    let enough = asked.count >= USUAL;
    for number in 0..=LARGEST {
        let appends = sum(&counted, |counts| counts.append[number]);
        let headers = sum(&counted, |counts| counts.header[number]);
        println!("{number}: {appends} appends, {headers} headers");
        assert!(appends == 0 || APPEND.contains(&number));
        assert!(headers == 0 || HEADER.contains(&number));
        if enough {
            assert!(appends > 0 || !APPEND.contains(&number), "append {number}");
            assert!(headers > 0 || !HEADER.contains(&number), "header {number}");
        }
    }
    for (kind, name) in ["lists", "made-up bookmarks"].into_iter().enumerate() {
        let equal = sum(&counted, |counts| counts.equal[kind]);
        let one_lower = sum(&counted, |counts| counts.one_lower[kind]);
        println!("{name}: {equal} at the last time, {one_lower} one lower");
        assert!(equal > 1_000 && one_lower > 1_000 || !enough, "{name}");
    }
    report_full(&counted, enough);
    report_texts(&counted, enough);
}

/// Every kind with texts was refused for one, in every place, and before all that comes after.
fn report_texts(counted: &[Counts], enough: bool) {
    for (kind, name) in Request::KINDS.into_iter().enumerate() {
        let mut texts = Texts::default();
        counted
            .iter()
            .for_each(|counts| texts.add(&counts.texts[kind]));
        println!("texts: {name}, {texts}");
        let has_several = ["rename", "table"].contains(&name);
        let is_few = match name {
            "data" => texts != Texts::default(),
            _ => texts.inside < FEW || has_several && texts.are_few(FEW),
        };
        assert!(!is_few || !enough, "{name}: {texts}");
    }
    for (place, name) in PLACES.into_iter().enumerate() {
        let count = sum(counted, |counts| counts.places[place]);
        println!("texts: {name}, {count}");
        assert!(count >= FEW || !enough, "{name}: {count}");
    }
    // A wrong place, a limit and wrong link bytes come before a text, all else comes after.
    reached(
        counted,
        enough,
        "a text at fault",
        &[8, 9, 10, 11],
        |counts| &counts.faulty,
    );
    let after = [0, 1, 11, 13, 14, 17];
    reached(counted, enough, "10 in place of it", &after, |counts| {
        &counts.sound
    });
}

/// Fails unless exactly these numbers came.
fn reached(
    counted: &[Counts],
    enough: bool,
    what: &str,
    numbers: &[usize],
    of: impl Fn(&Counts) -> &Numbers,
) {
    for number in 0..=LARGEST {
        let count = sum(counted, |counts| of(counts)[number]);
        let possible = numbers.contains(&number);
        if possible {
            println!("{number}, {what}: {count}");
        }
        assert!(count == 0 || possible, "{number}, {what}: {count}");
        assert!(count > 0 || !possible || !enough, "{number}, {what}");
    }
}

/// At the largest number a wrong place is told, and nothing else before 9.
fn report_full(counted: &[Counts], enough: bool) {
    for (kind, name) in Request::KINDS.into_iter().enumerate() {
        let told = |number: usize| sum(counted, |counts| counts.full[kind][number]);
        println!("full: {name}, {} with 8, {} with 9", told(8), told(9));
        for number in 0..=LARGEST {
            let possible = [8, 9].contains(&number);
            assert!(told(number) == 0 || possible, "{name}, {number}");
            assert!(
                told(number) > 100 || !possible || !enough,
                "{name}, {number}"
            );
        }
    }
    let after: Vec<usize> = APPEND.into_iter().filter(|&number| number != 8).collect();
    reached(counted, enough, "9 in place of it", &after, |counts| {
        &counts.instead
    });
    let filled = sum(counted, |counts| counts.filled);
    println!("full: {filled} lists");
    assert!(filled > 100 || !enough, "{filled} lists");
}
