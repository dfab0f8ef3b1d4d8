//! Blocks and links as the iterators give them.

use hdrfs::{Blocks, Content, Inode, LinkTable, Refusal, Volume};
use independent::links::{Link, Links};
use independent::{Block, Body, Bookmark, Part, Reading, Stat};

use crate::difference::{same_list, Difference};
use crate::volume::{bookmark, typed_refusal};

/// A block and the next bookmark, or a refusal.
type Step<'a> = Result<(Block<'a>, Bookmark), Refusal>;

/// All items of [`Volume::blocks`].
pub fn blocks(volume: &[u8]) -> Result<(), Difference> {
    let expected = match independent::read_header(volume) {
        Ok(header) => expected(volume, header.next),
        Err(refusal) => vec![Err(typed_refusal(refusal, 0))],
    };
    let proved = steps(volume, Volume::blocks(volume));
    same_list(&proved, &expected, || "Volume::blocks".into())?;
    let found = Volume::blocks(volume).flatten();
    for block in found {
        if let Content::LinkTable(table) = block.content {
            links(&table)?;
        }
    }
    Ok(())
}

/// All items of [`Blocks::at`] a bookmark.
pub fn blocks_at(volume: &[u8], mark: Bookmark) -> Result<(), Difference> {
    let from = hdrfs::Bookmark::at(mark.offset)
        .with_table_due(mark.due)
        .with_last_time(mark.last)
        .with_number(mark.number);
    let proved = steps(volume, Blocks::at(volume, from));
    let question = || format!("Blocks::at {mark:?}");
    same_list(&proved, &expected(volume, mark), question)
}

fn steps<'a>(volume: &'a [u8], blocks: Blocks<'a>) -> Vec<Step<'a>> {
    blocks
        .map(|item| item.map(|block| step(volume, &block)))
        .collect()
}

/// The same by the independent implementation.
fn expected(volume: &[u8], mut mark: Bookmark) -> Vec<Step<'_>> {
    let mut steps = Vec::new();
    loop {
        match independent::read(volume, mark) {
            Ok(Reading::End) => return steps,
            Ok(Reading::Block(block, next)) => {
                steps.push(Ok((block, next)));
                mark = next;
            }
            Err(refusal) => {
                let refusal = typed_refusal(refusal, mark.offset);
                steps.push(Err(refusal.with_block(Some(mark.number))));
                return steps;
            }
        }
    }
}

/// A block of the proved library in the types of the other.
fn step<'a>(volume: &'a [u8], block: &hdrfs::Block<'a>) -> (Block<'a>, Bookmark) {
    let time = block.time;
    let found = Block {
        id: block.id as u8,
        number: block.number,
        offset: block.offset,
        length: block.len(),
        time,
        body: body(volume, block.content, time.unwrap_or(0)),
    };
    (found, bookmark(block.next))
}

fn body<'a>(volume: &'a [u8], content: Content<'a>, time: u64) -> Body<'a> {
    let part = |bytes: &'a [u8]| Part {
        start: (bytes.as_ptr() as usize - volume.as_ptr() as usize) as u64,
        bytes,
    };
    match content {
        Content::Inode(inode) => Body::Inode {
            stat: stat(&inode, time),
            variable: part(inode.rest),
        },
        Content::Link(link) => Body::Link {
            child: link.child,
            parent: link.parent,
            name: part(link.name.as_bytes()),
        },
        Content::Unlink(link) => Body::Unlink {
            child: link.child,
            parent: link.parent,
            name: part(link.name.as_bytes()),
        },
        Content::Xattr { inode, name, value } => Body::Xattr {
            inode,
            name: part(name.as_bytes()),
            value: part(value),
        },
        Content::RemovedXattr { inode, name } => Body::RemovedXattr {
            inode,
            name: part(name.as_bytes()),
        },
        Content::Data { payload } => Body::Data {
            payload: part(payload),
        },
        Content::Rename { old, new } => Body::Rename {
            old: part(old.as_bytes()),
            new: part(new.as_bytes()),
        },
        Content::LinkTable(table) => Body::Table {
            count: table.len() as u64,
            links: part(table.bytes()),
        },
    }
}

fn stat(inode: &Inode<'_>, time: u64) -> Stat {
    Stat {
        inode: inode.number,
        time,
        mode: inode.mode,
        uid: inode.uid,
        gid: inode.gid,
        atime: inode.atime,
        mtime: inode.mtime,
        ctime: inode.ctime,
        btime: inode.btime,
        size: inode.size,
    }
}

/// All links of an accepted table.
fn links(table: &LinkTable<'_>) -> Result<(), Difference> {
    let proved: Vec<Link<'_>> = table
        .iter()
        .map(|link| Link {
            child: link.child,
            parent: link.parent,
            name: link.name.as_bytes(),
        })
        .collect();
    let expected: Vec<Link<'_>> = Links::new(table.bytes()).collect();
    same_list(&proved, &expected, || "LinkTable::iter".into())
}
