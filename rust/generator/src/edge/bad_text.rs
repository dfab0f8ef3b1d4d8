//! Texts at fault: the first of several, far behind, and beside other faults.

use crate::draft::{self, Draft};
use crate::image::{self, Stat};
use crate::rng::Rng;
use crate::texts::Fault;
use crate::Expected;

use super::{many_links, refused, with_inode};

pub const COUNT: u64 = 20;

const BAD_NAME: &[u8] = b"a\xffb";

/// A target of five bytes, at fault at 2.
const BAD_TARGET: &[u8] = b"ab\xed\xa0\x80";

pub fn edge(rng: &mut Rng, which: u64) -> (Draft, Expected) {
    match which {
        0..=5 => named(rng, which),
        6..=9 => renamed(rng, which),
        10..=13 => table(rng, which),
        14..=16 => inode(rng, which),
        17 => {
            // The checksum comes before.
            let mut draft = with_block(rng, &image::link(image::LINK, 1, 2, 3, BAD_NAME));
            let last = draft.bytes.len() - 1;
            draft.bytes[last] ^= 1;
            (draft, refused(5, 80, 0))
        }
        18 => {
            // The time comes after.
            let mut draft = Draft::new(rng, 0);
            draft.push_timed(9, &image::data(9, b""));
            draft.push(&image::link(image::LINK, 1, 2, 3, b"ab\xff"));
            (draft, bad_text(0, 2, 101, 1))
        }
        _ => {
            // What begins in one text and would end in the next.
            let draft = with_block(rng, &image::rename(1, b"a\xc3", b"\xa4"));
            (draft, bad_text(0, 1, 80, 0))
        }
    }
}

fn bad_text(text: u64, start: u64, offset: u64, blocks: u64) -> Expected {
    Expected::Refused {
        number: 10,
        fault: Fault { text, start },
        offset,
        blocks,
    }
}

/// Volume 0 with one block.
fn with_block(rng: &mut Rng, image: &[u8]) -> Draft {
    let mut draft = Draft::new(rng, 0);
    draft.push_timed(1, image);
    draft
}

/// One name. The value of an attribute is no text.
fn named(rng: &mut Rng, which: u64) -> (Draft, Expected) {
    let (image, expected) = match which {
        0 => {
            let image = image::link(image::LINK, 1, 2, 3, BAD_NAME);
            (image, bad_text(0, 1, 80, 0))
        }
        1 => {
            let image = image::link(image::UNLINK, 1, 2, 3, b"\xe2\x28");
            (image, bad_text(0, 0, 80, 0))
        }
        2 => (image::xattr(1, 2, b"unit", b"\xff"), Expected::Accepted),
        3 => {
            let image = image::xattr(1, 2, b"un\xe2\x28", b"\xff");
            (image, bad_text(0, 2, 80, 0))
        }
        4 => {
            let image = image::removed(1, 2, b"\xf0\x9f\x92");
            (image, bad_text(0, 0, 80, 0))
        }
        _ => {
            // The longest name, at fault in its last byte.
            let name = [vec![b'n'; 65_534], vec![0xC3]].concat();
            let image = image::link(image::LINK, 1, 2, 3, &name);
            (image, bad_text(0, 65_534, 80, 0))
        }
    };
    (with_block(rng, &image), expected)
}

fn renamed(rng: &mut Rng, which: u64) -> (Draft, Expected) {
    let mut long = vec![b'p'; 40_010];
    long[39_999] = 0xFF;
    let (old, new, text, start): (&[u8], &[u8], u64, u64) = match which {
        6 => (b"gauge", b"x\xc0\x80", 1, 1),
        7 => (b"ab\x80", b"\xff", 0, 2),
        8 => (&long, b"new", 0, 39_999),
        _ => (b"old", &long, 1, 39_999),
    };
    let draft = with_block(rng, &image::rename(1, old, new));
    (draft, bad_text(text, start, 80, 0))
}

/// Link tables. A link twice comes after its name.
fn table(rng: &mut Rng, which: u64) -> (Draft, Expected) {
    let named = |names: &[&[u8]]| -> Vec<Vec<u8>> {
        let link = |name: &&[u8]| image::table_link(5, 1, name);
        names.iter().map(link).collect()
    };
    let (links, text, start) = match which {
        10 => (named(&[b"ok", b"\xc3\xa9\x80", b"\xff"]), 1, 2),
        11 => (named(&[b"\xff", b"\xff"]), 0, 0),
        12 => (named(&[b"twice", b"twice", b"last\xf4\x90\x80\x80"]), 2, 4),
        _ => {
            let mut links = many_links(4_096);
            links[4_095] = image::table_link(9, 0, b"n\xff");
            (links, 4_095, 1)
        }
    };
    let sequence = draft::high_sequence(rng);
    let mut draft = Draft::new(rng, sequence);
    draft.push(&image::table(links.len() as u64, &links.concat()));
    (draft, bad_text(text, start, 80, 0))
}

/// A target at fault, with the right size and with a wrong one, and bytes of
/// a folder, which are no text.
fn inode(rng: &mut Rng, which: u64) -> (Draft, Expected) {
    if which == 16 {
        return (with_inode(rng, 0x41ED, 71, b"\xff"), refused(11, 80, 0));
    }
    let size = if which == 14 { 75 } else { rng.number() };
    let stat = Stat {
        mode: 0xA1FF,
        ..draft::any_stat(rng, 1, size)
    };
    let draft = with_block(rng, &image::inode(&stat, BAD_TARGET));
    (draft, bad_text(0, 2, 80, 0))
}
