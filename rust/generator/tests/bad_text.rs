//! Texts at fault occur in every place that a block has for them, with every
//! reason that a sequence can be ill-formed for, and beside other faults.
//!
//! What is at fault is found here by working out characters, bit by bit.

mod common;

use common::{bookmark, Found};
use generator::archive::archive;
use generator::image::{self, INODE, LINK, REMOVED, RENAME, TABLE, UNLINK, XATTR};
use generator::number::FULL;
use generator::texts::Fault;
use generator::{case, describe, edges, Case, Expected};
use independent::{check, lookup, read, runs, set_faults, Refusal, SetFault, Verdict};

const SEEDS: u64 = 10_000;
const ARCHIVES: u64 = 3_000;

/// The length of the sequence at the front, or the reason why it is none.
fn sequence(bytes: &[u8]) -> Result<usize, &'static str> {
    let (length, least, first) = match bytes[0] {
        byte @ 0x00..=0x7F => (1, 0, byte),
        0x80..=0xBF => return Err("lone"),
        byte @ 0xC0..=0xDF => (2, 0x80, byte & 0x1F),
        byte @ 0xE0..=0xEF => (3, 0x800, byte & 0x0F),
        byte @ 0xF0..=0xF7 => (4, 0x1_0000, byte & 0x07),
        _ => return Err("no byte of a text"),
    };
    let mut value = u32::from(first);
    for at in 1..length {
        match bytes.get(at) {
            Some(byte @ 0x80..=0xBF) => value = value << 6 | u32::from(byte & 0x3F),
            Some(_) => return Err("broken off"),
            None => return Err("cut"),
        }
    }
    match value {
        _ if value < least => Err("overlong"),
        0xD800..=0xDFFF => Err("surrogate"),
        0x11_0000.. => Err("above U+10FFFF"),
        _ => Ok(length),
    }
}

/// Where a text is at fault, and why.
fn reason(text: &[u8]) -> Option<(usize, &'static str)> {
    let mut at = 0;
    while at < text.len() {
        match sequence(&text[at..]) {
            Ok(length) => at += length,
            Err(reason) => return Some((at, reason)),
        }
    }
    None
}

/// A block with a text at fault.
struct Bad<'a> {
    block: &'a [u8],
    /// Its texts, and which of them are at fault.
    texts: Vec<&'a [u8]>,
    faulty: Vec<usize>,
}

impl<'a> Bad<'a> {
    /// The block at an offset, if it is there in full and a text of it is at fault.
    fn at(volume: &'a [u8], offset: u64) -> Option<Bad<'a>> {
        let blocks = image::blocks(volume);
        let range = blocks.into_iter().find(|b| b.start as u64 == offset)?;
        let block = &volume[range];
        let texts: Vec<&[u8]> = image::texts(block)
            .into_iter()
            .map(|text| &block[text])
            .collect();
        let faulty: Vec<usize> = (0..texts.len())
            .filter(|&text| reason(texts[text]).is_some())
            .collect();
        (!faulty.is_empty()).then_some(Bad {
            block,
            texts,
            faulty,
        })
    }

    /// The first text at fault, where in it, and why.
    fn first(&self) -> (usize, usize, &'static str) {
        let text = self.faulty[0];
        let (start, reason) = reason(self.texts[text]).expect("a text at fault");
        (text, start, reason)
    }

    /// What it has to be refused with.
    fn refusal(&self) -> Refusal {
        let (text, start, _) = self.first();
        Refusal::not_text(text as u64, start as u64)
    }
}

impl Found {
    /// Notes which text of a block is at fault.
    fn place(&mut self, bad: &Bad<'_>) {
        let kind = bad.block[0];
        self.note("a target", kind == INODE);
        self.note("a link", kind == LINK);
        self.note("an unlink", kind == UNLINK);
        self.note("an attribute", kind == XATTR);
        self.note("a removed attribute", kind == REMOVED);
        let renamed = |faulty: &[usize]| kind == RENAME && bad.faulty == faulty;
        self.note("the old path", renamed(&[0]));
        self.note("the new path", renamed(&[1]));
        self.note("both paths", renamed(&[0, 1]));
        let (last, many) = (bad.texts.len() - 1, bad.faulty.len());
        let linked = |is_so: bool| kind == TABLE && last > 0 && is_so;
        self.note("the first link alone", linked(bad.faulty == [0]));
        self.note("the last link alone", linked(bad.faulty == [last]));
        let between = bad.faulty[0] > 0 && bad.faulty[0] < last;
        self.note("a link between", linked(many == 1 && between));
        self.note("several links", linked(many > 1 && many <= last));
        self.note("several links, not the first", linked(many > 1 && between));
    }

    /// Notes where in a text the fault is, and why it is one.
    fn start(&mut self, bad: &Bad<'_>) {
        let (text, start, why) = bad.first();
        let text = bad.texts[text];
        for name in [
            "lone",
            "overlong",
            "surrogate",
            "above U+10FFFF",
            "broken off",
            "cut",
            "no byte of a text",
        ] {
            self.note(name, why == name);
        }
        let behind = text.len() - start;
        self.note("at the beginning", start == 0 && behind > 4);
        self.note("at the end", start > 0 && behind <= 4);
        self.note("between", start > 0 && behind > 4);
        self.note(
            "behind other letters",
            text[..start].iter().any(|b| *b > 0x7F),
        );
        self.note("far behind", start > 30_000);
        self.note("in the longest name", text.len() == 65_535);
        let faults = text.utf8_chunks().filter(|part| !part.invalid().is_empty());
        self.note("another fault behind", faults.count() > 1);
    }

    /// Notes what else is wrong with a block that is refused for a text.
    fn beside(&mut self, case: &Case, bad: &Bad<'_>, offset: u64) {
        let target = bad.texts[0].len() as u64;
        let number = |at: usize| u64::from_le_bytes(bad.block[at..at + 8].try_into().unwrap());
        let is_target = bad.block[0] == INODE;
        self.note("before 11", is_target && number(55) != 70 + target);
        // Each link with its parent.
        let links: Vec<_> = image::texts(bad.block)
            .into_iter()
            .map(|name| {
                (
                    &bad.block[name.start - 10..name.start - 2],
                    &bad.block[name],
                )
            })
            .collect();
        let twice = (1..links.len()).any(|k| links[..k].contains(&links[k]));
        self.note("before 13", bad.block[0] == TABLE && twice);
        let before = check(&case.volume[..offset as usize]);
        let last = match before {
            Verdict::Accepted { end, .. } => end.last,
            Verdict::Refused { .. } => None,
        };
        let time = generator::time::of_block(bad.block);
        self.note("before 14", time.is_some() && time < last);
        self.note("behind other blocks", offset > 80);
    }

    /// Notes a whole volume. The check has to say what is at fault.
    fn checked(&mut self, case: &Case) {
        let Verdict::Refused {
            refusal, offset, ..
        } = check(&case.volume)
        else {
            return;
        };
        let bad = Bad::at(&case.volume, offset);
        self.note("after 5", refusal.number == 5 && bad.is_some());
        if refusal.number != 10 {
            assert_eq!(refusal, Refusal::of(refusal.number), "{}", describe(case));
            return;
        }
        let bad = bad.unwrap_or_else(|| panic!("no text at fault\n{}", describe(case)));
        assert_eq!(refusal, bad.refusal(), "{}", describe(case));
        self.place(&bad);
        self.start(&bad);
        self.beside(case, &bad, offset);
    }

    /// Notes what is read at bookmarks and looked up.
    fn asked(&mut self, case: &Case) {
        let at = |offset| Bad::at(&case.volume, offset);
        for mark in &case.bookmarks {
            let told = read(&case.volume, bookmark(mark)).err();
            self.told(
                ["a later text read", "inside a text read"],
                at(mark.offset),
                told,
            );
            let full = mark.number == FULL && mark.last == Some(u64::MAX);
            let is_bad = told.is_some_and(|refusal| refusal.number == 10);
            self.note("before 14 and 9", full && is_bad);
        }
        for &offset in &case.inode_offsets {
            let told = lookup(&case.volume, offset, &case.lengths, 0).err();
            self.told(
                ["a later text placed", "inside a text placed"],
                at(offset),
                told,
            );
            let told = runs(&case.volume, offset, &case.lengths, 0, 9, &mut []).err();
            self.told(
                ["a later text in runs", "inside a text in runs"],
                at(offset),
                told,
            );
        }
    }

    /// Notes whether a call says that another text than the first is at fault,
    /// and another place than the beginning.
    fn told(&mut self, names: [&'static str; 2], bad: Option<Bad<'_>>, told: Option<Refusal>) {
        let refusal = told.unwrap_or(Refusal::of(0));
        let expected = match refusal.number {
            10 => bad.expect("a text at fault").refusal(),
            number => Refusal::of(number),
        };
        assert_eq!(refusal, expected);
        self.note(names[0], refusal.text > 0);
        self.note(names[1], refusal.start > 0);
    }
}

#[test]
fn everything_is_at_fault() {
    let mut found = Found::default();
    for seed in 0..SEEDS {
        let case = case(seed);
        found.checked(&case);
        found.asked(&case);
    }
    found.at_least(20);
}

/// Attributes with a value that is no text are accepted.
#[test]
fn values_are_no_texts() {
    let (mut accepted, mut refused) = (0, 0);
    for seed in 0..SEEDS {
        let volume = case(seed).volume;
        let is_accepted = matches!(check(&volume), Verdict::Accepted { .. });
        for block in image::blocks(&volume) {
            let block = &volume[block];
            if block[0] != XATTR {
                continue;
            }
            let value = 20 + usize::from(block[17])..block.len() - 4;
            let bad = reason(&block[value]).is_some();
            accepted += u64::from(bad && is_accepted);
            let name = &block[image::texts(block)[0].clone()];
            refused += u64::from(bad && reason(name).is_some());
        }
    }
    println!("{accepted} accepted, {refused} with a name at fault too");
    assert!(accepted > 50 && refused > 20);
}

/// A volume of a set that is refused for a text.
#[test]
fn sets_are_refused_for_texts() {
    let mut found = Found::default();
    for seed in 0..ARCHIVES {
        let archive = archive(seed);
        let lent: Vec<&[u8]> = archive.volumes.iter().map(Vec::as_slice).collect();
        for fault in set_faults(&lent) {
            let SetFault::Refused {
                place,
                refusal,
                offset,
                ..
            } = fault
            else {
                continue;
            };
            if refusal.number != 10 {
                continue;
            }
            let bad = Bad::at(lent[place], offset).expect("a text at fault");
            assert_eq!(refusal, bad.refusal());
            found.place(&bad);
            found.note("a later text", refusal.text > 0);
            found.note("inside a text", refusal.start > 0);
        }
    }
    found.at_least(4);
    assert!(found.0["a later text"] > 40 && found.0["inside a text"] > 100);
}

/// The edges with a text at fault say themselves what is.
#[test]
fn edges_are_at_fault() {
    let mut faults = Vec::new();
    for case in edges() {
        if let Expected::Refused {
            number: 10, fault, ..
        } = case.expected
        {
            faults.push(fault);
        }
    }
    let is_there = |text, start| faults.contains(&Fault { text, start });
    assert!(is_there(0, 39_999) && is_there(1, 39_999));
    assert!(is_there(4_095, 1) && is_there(0, 65_534));
    assert!(is_there(1, 2) && is_there(0, 0));
}
