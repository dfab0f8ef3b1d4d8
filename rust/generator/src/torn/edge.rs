//! Volumes at the edges of repair, put together from the sample volume and
//! the smallest ones.

use super::{kept, refused, Answer};
use crate::image::{self, Extent, Stat, COUNTED, LIMIT};
use crate::texts::Fault;

const TOP: u64 = u64::MAX;

/// The length of the sample volume.
const SAMPLE: usize = 104;

/// A volume with its answer.
#[derive(Clone, Debug)]
pub struct Edge {
    /// What it is, for reports.
    pub name: String,
    pub bytes: Vec<u8>,
    pub expected: Answer,
    /// The text at fault, if the number is 10; else its numbers are 0.
    pub fault: Fault,
}

/// Every edge once, those of 16 MiB included.
pub fn edges() -> Vec<Edge> {
    [
        cut_behind_sample(),
        whole_behind_sample(),
        headers(),
        tables(),
        behind_sample(),
        stated_lengths(),
        lengths_in_the_middle(),
        texts(),
        large(),
    ]
    .concat()
}

fn edge(name: impl Into<String>, bytes: Vec<u8>, expected: Answer) -> Edge {
    Edge {
        name: name.into(),
        bytes,
        expected,
        fault: Fault::default(),
    }
}

fn header(sequence: u64) -> Vec<u8> {
    let previous = [u8::from(sequence > 0); 32];
    image::header(sequence, &[0; 16], &previous)
}

/// The sample volume with these bytes behind it.
fn sample_and(bytes: &[u8]) -> Vec<u8> {
    let volume = [&header(0)[..], &image::data(7, b"1,5"), bytes].concat();
    assert_eq!(volume.len(), SAMPLE + bytes.len());
    volume
}

fn inode(mode: u16, size: u64, variable: &[u8]) -> Vec<u8> {
    let stat = Stat {
        inode: 5,
        time: 8,
        mode,
        uid: 1,
        gid: 1,
        stamps: [8; 4],
        size,
    };
    image::inode(&stat, variable)
}

/// Every kind of block but the table, at a time after the sample's.
fn kinds() -> [(&'static str, Vec<u8>); 9] {
    let extent = Extent {
        volume: 0,
        start: 97,
        size: 3,
        multiplicity: COUNTED,
        count: 1,
        pre: 0,
        post: 0,
        logical: 0,
    };
    [
        ("an inode with an extent", inode(0x81A4, 3, &extent.bytes())),
        ("a symbolic link", inode(0xA1FF, 75, b"gauge")),
        ("another inode", inode(0x41ED, 70, b"")),
        ("a link", image::link(image::LINK, 8, 5, 1, b"gauge")),
        ("an unlink", image::link(image::UNLINK, 8, 5, 1, b"g")),
        ("an attribute", image::xattr(8, 5, b"unit", b"m")),
        ("a removed attribute", image::removed(8, 5, b"unit")),
        ("data", image::data(8, b"1,5")),
        ("a rename", image::rename(8, b"a", b"bc")),
    ]
}

/// Every kind, ending after each of its bytes but the last.
fn cut_behind_sample() -> Vec<Edge> {
    let cuts = |(name, image): (&str, Vec<u8>)| -> Vec<Edge> {
        let lengths = 1..image.len();
        let cut = |length| {
            let name = format!("sample and {length} bytes of {name}");
            edge(name, sample_and(&image[..length]), kept(SAMPLE))
        };
        lengths.map(cut).collect()
    };
    kinds().into_iter().flat_map(cuts).collect()
}

fn whole_behind_sample() -> Vec<Edge> {
    let whole = |(name, image): (&str, Vec<u8>)| {
        let volume = sample_and(&image);
        let length = volume.len();
        edge(format!("sample and {name}"), volume, kept(length))
    };
    kinds().into_iter().map(whole).collect()
}

/// Headers that are cut, alone, or have one byte behind them.
fn headers() -> Vec<Edge> {
    let mut list = vec![
        edge("nothing", Vec::new(), refused(2)),
        edge("79 bytes", header(0)[..79].to_vec(), refused(2)),
        edge("header of volume 0", header(0), kept(80)),
        edge("header of volume 1", header(1), refused(2)),
    ];
    for id in 0..=9 {
        let behind = |sequence| [header(sequence), vec![id]].concat();
        let (free, due) = match id {
            0 | 9 => (refused(7), refused(7)),
            8 => (refused(8), refused(2)),
            _ => (kept(80), refused(8)),
        };
        list.push(edge(
            format!("header of volume 0 and {id}"),
            behind(0),
            free,
        ));
        list.push(edge(format!("header of volume 1 and {id}"), behind(1), due));
    }
    list
}

/// A table that ends after each of its bytes, and what stands behind it cut.
fn tables() -> Vec<Edge> {
    let table = image::table(1, &image::table_link(5, 1, b"g"));
    let whole = [header(1), table].concat();
    let end = whole.len();
    assert_eq!(end, 112);
    let cut = |length: usize| {
        let name = format!("volume 1 and {} bytes of its table", length - 80);
        edge(name, whole[..length].to_vec(), refused(2))
    };
    let mut list: Vec<Edge> = (81..end).map(cut).collect();
    list.push(edge("volume 1 and its table", whole.clone(), kept(end)));
    for length in [1, 5, 23] {
        let data = &image::data(1, b"1,5")[..length];
        let name = format!("volume 1, its table and {length} bytes of data");
        list.push(edge(name, [&whole[..], data].concat(), kept(end)));
    }
    list
}

/// What stands behind the sample volume, if anything.
fn behind_sample() -> Vec<Edge> {
    let lower = image::data(6, b"1,5");
    let rows: [(&str, &[u8], Answer); 8] = [
        ("nothing", b"", kept(SAMPLE)),
        ("00", &[0], refused(7)),
        ("09", &[9], refused(7)),
        ("08", &[8], refused(8)),
        ("40 zeros", &[0; 40], refused(7)),
        ("512 zeros", &[0; 512], refused(7)),
        ("a lower time", &lower, refused(14)),
        ("a lower time, cut", &lower[..23], kept(SAMPLE)),
    ];
    let row = |(name, bytes, expected): (&str, &[u8], Answer)| {
        edge(format!("sample and {name}"), sample_and(bytes), expected)
    };
    rows.into_iter().map(row).collect()
}

/// Fixed fields behind the sample volume that state more than there is.
fn stated_lengths() -> Vec<Edge> {
    let data = image::data(8, b"")[..9].to_vec();
    let target = inode(0xA1FF, 70, b"")[..63].to_vec();
    let regular = inode(0x81A4, 0, b"")[..63].to_vec();
    let stating = |name: &str, fields: &[u8], n: u64, expected| {
        let bytes = [fields, &n.to_le_bytes()].concat();
        edge(format!("{name} of {n} bytes"), sample_and(&bytes), expected)
    };
    let long = |n| stating("data", &data, n, kept(SAMPLE));
    let mut list: Vec<Edge> = [TOP, TOP - 3, TOP - 16, TOP - 20, 1 << 32].map(long).into();
    let long = |n| stating("a target", &target, n, kept(SAMPLE));
    list.extend([TOP, TOP - 70, TOP - 74, 58_369].map(long));
    list.push(stating("extents", &regular, 58_368, kept(SAMPLE)));
    list.extend([58_369, TOP].map(|n| stating("extents", &regular, n, refused(9))));
    // Without its last byte the length says nothing yet.
    let cut = [&regular[..], &[0xFF; 7]].concat();
    list.push(edge("a length cut", sample_and(&cut), kept(SAMPLE)));
    list
}

/// Blocks of which one in the middle has a wrong length or a wrong byte.
fn lengths_in_the_middle() -> Vec<Edge> {
    let blocks = [image::data(8, b"x"), image::data(9, b"1,5")].concat();
    let sound = sample_and(&blocks);
    assert_eq!(sound.len(), 150);
    let with = |n: u64| [&sound[..113], &n.to_le_bytes(), &sound[121..]].concat();
    let row = |(n, expected)| edge(format!("length {n} in the middle"), with(n), expected);
    let rows = [
        (0, refused(5)),
        (1, kept(150)),
        (25, refused(5)),
        (26, kept(SAMPLE)),
        (200, kept(SAMPLE)),
        (TOP, kept(SAMPLE)),
    ];
    let mut list: Vec<Edge> = rows.into_iter().map(row).collect();
    let mut damaged = sample_and(b"");
    damaged[97] ^= 1;
    list.push(edge("a damaged payload", damaged.clone(), refused(5)));
    damaged.push(image::DATA);
    list.push(edge("the same and 06", damaged, refused(5)));
    list
}

/// Texts at fault, whole and cut.
fn texts() -> Vec<Edge> {
    let rename = image::rename(8, b"gauge", b"ab\xff");
    let whole = sample_and(&rename);
    let cut = whole[..whole.len() - 1].to_vec();
    let links = [
        image::table_link(5, 1, b"ok"),
        image::table_link(6, 1, b"\xc3\xa9\x80"),
    ];
    let table = [header(1), image::table(2, &links.concat())].concat();
    let at = |text, start, edge| Edge {
        fault: Fault { text, start },
        ..edge
    };
    vec![
        at(1, 2, edge("a path at fault", whole, refused(10))),
        edge("a path at fault, cut", cut, kept(SAMPLE)),
        at(1, 2, edge("a name at fault", table, refused(10))),
    ]
}

/// A volume as long as one may be, a byte shorter and a byte longer.
fn large() -> Vec<Edge> {
    let data = image::data(8, &vec![5; LIMIT - SAMPLE - 21]);
    let volume = sample_and(&data);
    let shorter = volume[..LIMIT - 1].to_vec();
    let longer = [&volume[..], &[image::DATA]].concat();
    vec![
        edge("the longest", volume, kept(LIMIT)),
        edge("the longest without a byte", shorter, kept(SAMPLE)),
        edge("the longest and 06", longer, refused(1)),
    ]
}
