//! Volumes to repair are answered as their making says, and all that can be
//! wrong with one occurs.

mod common;

use std::collections::{BTreeMap, BTreeSet};

use common::{Found, KINDS};
use generator::image::{self, LIMIT};
use generator::texts::Fault;
use generator::torn::{
    damaged, describe, describe_damaged, edges, whole, Answer, Damaged, Kind, Whole, MOST,
};
use independent::{check, longest_accepted, read_header, repair, Refusal, Verdict};

/// Drawn to be cut at every byte.
const WHOLE: u64 = 400;

const DAMAGED: u64 = 12_000;

/// What repair answers, with the text at fault.
fn answer(volume: &[u8]) -> (Answer, Fault) {
    match repair(volume) {
        Ok(length) => ((0, length), Fault::default()),
        Err(Refusal {
            number,
            text,
            start,
        }) => ((number, 0), Fault { text, start }),
    }
}

/// How many blocks an accepted volume has.
fn blocks(volume: &[u8]) -> Option<u64> {
    match check(volume) {
        Verdict::Accepted { blocks, .. } => Some(blocks),
        Verdict::Refused { .. } => None,
    }
}

/// What the check refuses a volume with, if it does.
fn first_fault(volume: &[u8]) -> Option<Refusal> {
    match check(volume) {
        Verdict::Accepted { .. } => None,
        Verdict::Refused { refusal, .. } => Some(refusal),
    }
}

#[test]
fn a_seed_gives_one_volume() {
    for seed in 0..200 {
        assert_eq!(describe(&whole(seed)), describe(&whole(seed)));
        let [one, two] = [damaged(seed), damaged(seed)];
        assert_eq!(describe_damaged(&one), describe_damaged(&two));
    }
    assert_ne!(whole(1).volume, whole(2).volume);
    assert_ne!(damaged(1).volume, damaged(2).volume);
}

impl Found {
    /// Notes what stands at the end of a whole volume and before that.
    fn whole(&mut self, whole: &Whole) {
        let block = &whole.volume[whole.last..];
        let file_type = (block[0] == image::INODE).then(|| block[18] >> 4);
        let has_extents = file_type == Some(8) && block.len() > 75;
        self.note("a regular file", file_type == Some(8));
        self.note("a file with extents", has_extents);
        self.note("a symbolic link", file_type == Some(10));
        let is_other = file_type.is_some_and(|kind| ![8, 10].contains(&kind));
        self.note("another inode", is_other);
        for (id, name) in (image::LINK..=image::RENAME).zip(&KINDS[1..]) {
            self.note(name, block[0] == id);
        }
        let sequence = read_header(&whole.volume).expect("a header").sequence;
        let is_alone = whole.beginnings.len() == 2;
        self.note("alone in volume 0", sequence == 0 && is_alone);
        self.note("alone behind a table", sequence > 0 && is_alone);
        self.note("behind others in volume 0", sequence == 0 && !is_alone);
        self.note("behind others and a table", sequence > 0 && !is_alone);
    }
}

#[test]
fn whole_volumes_are_sound() {
    let mut found = Found::default();
    for seed in 0..2_000 {
        let whole = whole(seed);
        let text = describe(&whole);
        assert!(whole.volume.len() <= MOST, "{text}");
        let last = image::blocks(&whole.volume).pop().expect("a block");
        assert_eq!(last, whole.last..whole.volume.len(), "{text}");
        let is_accepted = |&length: &usize| blocks(&whole.volume[..length]).is_some();
        let beginnings: Vec<usize> = (0..=whole.volume.len()).filter(is_accepted).collect();
        assert_eq!(beginnings, whole.beginnings, "{text}");
        found.whole(&whole);
    }
    found.at_least(40);
}

/// Where a volume that ends too early is refused, and after how many blocks.
fn refused_at(cut: &[u8], (number, kept): Answer) -> (u64, u64) {
    match number {
        0 => {
            let before = blocks(&cut[..kept as usize]);
            (kept, before.expect("a sound beginning"))
        }
        _ if cut.len() < 80 => (0, 0),
        _ => (80, 0),
    }
}

/// Asks about the first bytes of a whole volume.
fn compare_cut(whole: &Whole, length: usize) -> Answer {
    let cut = &whole.volume[..length];
    let expected = whole.cut(length);
    let told = (expected, Fault::default());
    assert_eq!(answer(cut), told, "{length} bytes of {}", describe(whole));
    let is_accepted = whole.beginnings.contains(&length);
    assert_eq!(is_accepted, expected == (0, length as u64));
    if !is_accepted {
        let (offset, blocks) = refused_at(cut, expected);
        let refusal = Refusal::of(2);
        let verdict = Verdict::Refused {
            refusal,
            offset,
            blocks,
        };
        assert_eq!(check(cut), verdict, "{length} bytes of {}", describe(whole));
    }
    expected
}

#[test]
fn every_cut_is_as_made() {
    let (mut kept, mut refused) = (0, 0);
    for seed in 0..WHOLE {
        let whole = whole(seed);
        for length in 0..=whole.volume.len() {
            let told = compare_cut(&whole, length);
            kept += u64::from(told.0 == 0);
            refused += u64::from(told.0 == 2);
            let is_last = (whole.last..whole.volume.len()).contains(&length);
            assert!(!is_last || told == (0, whole.last as u64));
        }
    }
    println!("{kept} kept, {refused} refused");
    assert!(kept > 100_000 && refused > 40_000);
}

/// Fails if the making promised another answer, if what is kept is not the
/// longest beginning that is accepted, or if another fault than 2 is repaired.
fn compare(damaged: &Damaged) -> (Answer, Fault) {
    let text = describe_damaged(damaged);
    let volume = &damaged.volume;
    let told = answer(volume);
    if let Some(expected) = damaged.expected {
        assert_eq!(told, (expected, Fault::default()), "{text}");
    }
    let early = Refusal::of(2);
    match repair(volume) {
        Ok(kept) => {
            let first = first_fault(volume);
            assert!(first.is_none_or(|refusal| refusal == early), "{text}");
            assert_eq!(longest_accepted(volume), Some(kept), "{text}");
        }
        Err(refusal) => {
            assert_eq!(first_fault(volume), Some(refusal), "{text}");
            let is_header_or_table = longest_accepted(volume).is_none();
            assert!(refusal != early || is_header_or_table, "{text}");
        }
    }
    told
}

/// Whether there are sound blocks behind what is kept.
fn drops_sound_blocks(volume: &[u8], kept: u64) -> bool {
    let header = image::header(0, &[0; 16], &[0; 32]);
    let rest = &volume[kept as usize..];
    let is_sound = |at| blocks(&[&header[..], &rest[at..]].concat()).is_some();
    (1..rest.len()).any(is_sound)
}

impl Found {
    /// Notes what is told of a damaged length.
    fn length(&mut self, damaged: &Damaged, told: Answer, is_part: bool) {
        self.note("length: accepted", told.0 == 0 && !is_part);
        self.note("length: kept in part", is_part);
        self.note("length: only the header kept", is_part && told.1 == 80);
        let drops = is_part && drops_sound_blocks(&damaged.volume, told.1);
        self.note("length: sound blocks dropped", drops);
        self.note("length: a table's", told.0 == 2);
        self.note("length: 5", told.0 == 5);
        self.note("length: 7", told.0 == 7);
        self.note("length: 9", told.0 == 9);
        self.note("length: promised", damaged.expected.is_some());
        self.note("length: not promised", damaged.expected.is_none());
    }

    fn behind(&mut self, damaged: &Damaged, told: Answer, is_part: bool) {
        if damaged.kind == Kind::Zeros {
            self.note("zeros: 7", told.0 == 7);
            return;
        }
        self.note("rubbish: kept in part", is_part);
        self.note("rubbish: 5", told.0 == 5);
        self.note("rubbish: 7", told.0 == 7);
        self.note("rubbish: 8", told.0 == 8);
        self.note("rubbish: promised", damaged.expected.is_some());
        self.note("rubbish: not promised", damaged.expected.is_none());
    }

    fn byte(&mut self, (told, fault): (Answer, Fault), is_part: bool) {
        self.note("byte: accepted", told.0 == 0 && !is_part);
        self.note("byte: kept in part", is_part);
        self.note("byte: in the header", [3, 4].contains(&told.0));
        self.note("byte: 5", told.0 == 5);
        self.note("byte: 7", told.0 == 7);
        self.note("byte: what is told after 5", told.0 > 10);
        self.note("byte: a text", told.0 == 10);
        self.note("byte: a text, not from its start", fault.start > 0);
    }

    fn cut_and_byte(&mut self, told: Answer, is_part: bool) {
        self.note("cut: kept in part", is_part);
        self.note("cut: header or table", told.0 == 2);
        self.note("cut: in the header", [3, 4].contains(&told.0));
        self.note("cut: 5", told.0 == 5);
        self.note("cut: 7", told.0 == 7);
    }

    fn damaged(&mut self, damaged: &Damaged, (told, fault): (Answer, Fault)) {
        let is_part = told.0 == 0 && told.1 < damaged.volume.len() as u64;
        match damaged.kind {
            Kind::Length => self.length(damaged, told, is_part),
            Kind::Zeros | Kind::Rubbish => self.behind(damaged, told, is_part),
            Kind::Byte => self.byte((told, fault), is_part),
            Kind::CutAndByte => self.cut_and_byte(told, is_part),
        }
    }
}

#[test]
fn damaged_volumes_are_as_made() {
    let mut found = Found::default();
    let mut kinds = BTreeMap::new();
    let mut numbers = [0; 15];
    for seed in 0..DAMAGED {
        let damaged = damaged(seed);
        let told = compare(&damaged);
        found.damaged(&damaged, told);
        *kinds.entry(damaged.kind).or_insert(0) += 1;
        numbers[told.0 .0 as usize] += 1;
    }
    println!("{kinds:?}\n{numbers:?}");
    assert!(Kind::ALL.iter().all(|kind| kinds[kind] > 300), "{kinds:?}");
    for number in [0, 2, 3, 4, 5, 7, 8, 9, 10, 11, 14] {
        assert!(numbers[number] > 10, "{number}");
    }
    found.at_least(15);
}

#[test]
fn edges_are_as_made() {
    let list = edges();
    let mut names = BTreeSet::new();
    for edge in &list {
        assert_eq!(
            answer(&edge.bytes),
            (edge.expected, edge.fault),
            "{}",
            edge.name
        );
        assert!(names.insert(&edge.name), "{} twice", edge.name);
    }
    // Each kind is cut at every byte.
    let cuts = |kind: &str| {
        let end = format!("bytes of {kind}");
        let is_cut = |name: &&String| name.starts_with("sample and") && name.ends_with(&end);
        names.iter().copied().filter(is_cut).count()
    };
    let kinds = [
        ("an inode with an extent", 132),
        ("a symbolic link", 80),
        ("another inode", 75),
        ("a link", 36),
        ("an unlink", 32),
        ("an attribute", 29),
        ("a removed attribute", 26),
        ("data", 24),
        ("a rename", 20),
    ];
    for (kind, length) in kinds {
        assert_eq!(cuts(kind), length - 1, "{kind}");
    }
    let lengths: BTreeSet<usize> = list.iter().map(|edge| edge.bytes.len()).collect();
    assert!([0, 79, 80, 150, LIMIT - 1, LIMIT, LIMIT + 1]
        .iter()
        .all(|length| lengths.contains(length)));
}
