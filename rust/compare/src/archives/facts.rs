//! What a set says of its volumes and inodes.

use std::ops::RangeInclusive;

use hdrfs::{CurrentInode, Member, Multiplicity};
use independent::extent::extents;
use independent::{check, read_header, Bookmark, Extent, Inode, LastLink, Verdict};

use super::opening::Both;
use super::reading::failed;
use crate::difference::{same, same_list, Difference};
use crate::volume::bookmark;

/// Compares everything but the files' bytes. Answers how many inodes there are.
///
/// # Errors
///
/// The first thing that differs.
pub fn compare(both: &Both<'_>, numbers: &[u64]) -> Result<u64, Difference> {
    volumes(both)?;
    let Both {
        proved,
        independent,
    } = both;
    let listed: Vec<Fields> = proved.inodes().map(|inode| current(&inode)).collect();
    let expected: Vec<Fields> = independent.inodes().values().map(inode).collect();
    same_list(&listed, &expected, || "inodes".into())?;
    for &number in numbers {
        let one = proved.inode(number).map(|inode| current(&inode));
        let other = independent.inodes().get(&number).map(inode);
        same(one, other, || format!("inode {number}"))?;
        block(both, number)?;
    }
    for inode in proved.inodes() {
        let last = independent.inodes()[&inode.number].last_link;
        let taken_away = last.is_some_and(|link| link.taken_away);
        let number = inode.number;
        let question = || format!("whether the last link to {number} is gone");
        same(inode.unlinked, taken_away, question)?;
        let given = proved.last_link(number).map(|link| given_link(&link));
        let expected = last.map(|link| expected_link(&link));
        same(given, expected, || format!("last link to {number}"))?;
    }
    Ok(expected.len() as u64)
}

/// The volumes and what is missing between them.
fn volumes(both: &Both<'_>) -> Result<(), Difference> {
    let Both {
        proved,
        independent,
    } = both;
    same(proved.id(), Some(independent.id()), || "ID".into())?;
    let members: Vec<_> = proved.volumes().map(member).collect();
    let volumes = independent.volumes().values();
    let expected: Vec<_> = volumes.map(|bytes| volume(bytes)).collect();
    same_list(&members, &expected, || "volumes".into())?;
    let gaps: Vec<RangeInclusive<u64>> = proved.gaps().collect();
    same_list(&gaps, &independent.missing(), || "missing volumes".into())?;
    for sequence in [0, 1, 5, 12, 4_095, u64::MAX] {
        let one = proved.volume(sequence).map(member);
        let other = independent.volumes().get(&sequence);
        let other = other.map(|bytes| volume(bytes));
        same(one, other, || format!("volume {sequence}"))?;
    }
    Ok(())
}

/// Whether it was taken away, the parent, the name, and whether that is cut.
type Link = (bool, u64, String, bool);

fn given_link(link: &hdrfs::LastLink<'_>) -> Link {
    (link.taken_away, link.parent, link.name.into(), link.cut)
}

/// Of a name, the characters that end within the first 255 bytes are told.
fn expected_link(link: &LastLink<'_>) -> Link {
    let name = std::str::from_utf8(link.name).expect("an accepted name is text");
    let mut told = String::new();
    for letter in name.chars() {
        if told.len() + letter.len_utf8() > 255 {
            break;
        }
        told.push(letter);
    }
    let cut = told != name;
    (link.taken_away, link.parent, told, cut)
}

/// The inode block of a number, with its extents or its target.
fn block(both: &Both<'_>, number: u64) -> Result<(), Difference> {
    let Some(expected) = both.independent.inodes().get(&number) else {
        return Ok(());
    };
    let question = || format!("block of inode {number}");
    let block = both
        .proved
        .block(number)
        .map_err(|error| failed(&question(), &error))?;
    same(current(block.current()), inode(expected), question)?;
    let bytes = expected.variable.bytes;
    let regular = expected.stat.is_regular();
    let list: Vec<_> = block
        .inode()
        .extents()
        .map(|extent| plain(&extent))
        .collect();
    let expected_list: Vec<_> = extents(if regular { bytes } else { b"" }).collect();
    same_list(&list, &expected_list, || {
        format!("extents of inode {number}")
    })?;
    let target = expected.stat.is_symbolic_link().then_some(bytes);
    let given = block.inode().target().map(str::as_bytes);
    same(given, target, || format!("target of inode {number}"))
}

/// An extent as it is stored.
fn plain(extent: &hdrfs::Extent) -> Extent {
    Extent {
        volume: extent.volume,
        start: extent.start.0,
        size: extent.size,
        multiplicity: match extent.multiplicity {
            Multiplicity::Contiguous => 67,
            Multiplicity::Repeated => 82,
        },
        count: extent.count,
        pre: extent.pre,
        post: extent.post,
        logical: extent.logical.0,
    }
}

/// Sequence number, ID, previous hash, length, blocks, and the end.
type Volume = (u64, [u8; 16], [u8; 32], u64, u64, Bookmark);

fn member(member: &Member) -> Volume {
    (
        member.sequence(),
        member.id(),
        member.previous(),
        member.len(),
        member.block_count(),
        bookmark(member.end()),
    )
}

fn volume(bytes: &[u8]) -> Volume {
    let header = read_header(bytes).expect("a set is accepted");
    let Verdict::Accepted { blocks, end, .. } = check(bytes) else {
        unreachable!("a set is accepted");
    };
    (
        header.sequence,
        *header.id,
        *header.previous,
        bytes.len() as u64,
        blocks,
        end,
    )
}

/// The fields of an inode block and where it stands.
#[derive(Debug, PartialEq, Eq)]
struct Fields {
    number: u64,
    volume: u64,
    block: u64,
    offset: u64,
    block_len: u64,
    size: u64,
    times: [u64; 5],
    mode: u16,
    owner: [u16; 2],
}

fn current(inode: &CurrentInode) -> Fields {
    Fields {
        number: inode.number,
        volume: inode.volume,
        block: inode.block,
        offset: inode.offset,
        block_len: inode.block_len,
        size: inode.size,
        times: [
            inode.time,
            inode.atime,
            inode.mtime,
            inode.ctime,
            inode.btime,
        ],
        mode: inode.mode,
        owner: [inode.uid, inode.gid],
    }
}

fn inode(inode: &Inode<'_>) -> Fields {
    let stat = &inode.stat;
    Fields {
        number: stat.inode,
        volume: inode.volume,
        block: inode.block,
        offset: inode.offset,
        block_len: 75 + inode.variable.bytes.len() as u64,
        size: stat.size,
        times: [stat.time, stat.atime, stat.mtime, stat.ctime, stat.btime],
        mode: stat.mode,
        owner: [stat.uid, stat.gid],
    }
}
