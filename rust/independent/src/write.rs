//! The header writer and an append for each block.
//!
//! An append puts its block at the bookmark and gives the next bookmark. On
//! refusal the buffer stays as it was.

use crate::block::{
    inode_rules, table_rules, Bookmark, Stat, CRC, DATA, EXTENT_BYTES, INODE, LINK, REMOVED_XATTR,
    RENAME, TABLE, UNLINK, XATTR,
};
use crate::header::{after_header, MAGIC_BYTES};
use crate::refusal::*;
use crate::utf8::require_text;
use crate::{crc, links, HEADER_LENGTH, LINK_LIMIT, VOLUME_LIMIT};

/// Writes a header at the front of the buffer.
pub fn write_header(
    buffer: &mut [u8],
    id: &[u8],
    sequence: u64,
    previous: &[u8],
) -> Result<Bookmark, Refusal> {
    if id.len() != 16 || previous.len() != 32 {
        return Err(FIELD);
    }
    if sequence == 0 && previous.iter().any(|&byte| byte != 0) {
        return Err(FIRST_HASH);
    }
    let out = buffer.get_mut(..HEADER_LENGTH).ok_or(NO_ROOM)?;
    let fields: [&[u8]; 5] = [&MAGIC_BYTES, &[0], id, &[0, 0], &sequence.to_le_bytes()];
    fill(out, &fields, previous);
    Ok(after_header(sequence))
}

pub fn append_inode(
    buffer: &mut [u8],
    mark: Bookmark,
    stat: &Stat,
    variable: &[u8],
) -> Result<Bookmark, Refusal> {
    place(mark, false)?;
    let n = variable.len() as u64;
    if stat.is_regular() && n > EXTENT_BYTES {
        return Err(OVER_LIMIT);
    }
    inode_rules(stat, variable)?;
    let fields: [&[u8]; 12] = [
        &[INODE],
        &stat.inode.to_le_bytes(),
        &stat.time.to_le_bytes(),
        &stat.mode.to_le_bytes(),
        &stat.uid.to_le_bytes(),
        &stat.gid.to_le_bytes(),
        &stat.atime.to_le_bytes(),
        &stat.mtime.to_le_bytes(),
        &stat.ctime.to_le_bytes(),
        &stat.btime.to_le_bytes(),
        &stat.size.to_le_bytes(),
        &n.to_le_bytes(),
    ];
    put(buffer, mark, Some(stat.time), &fields, variable)
}

pub fn append_link(
    buffer: &mut [u8],
    mark: Bookmark,
    time: u64,
    child: u64,
    parent: u64,
    name: &[u8],
) -> Result<Bookmark, Refusal> {
    link(buffer, mark, LINK, time, [child, parent], name)
}

pub fn append_unlink(
    buffer: &mut [u8],
    mark: Bookmark,
    time: u64,
    child: u64,
    parent: u64,
    name: &[u8],
) -> Result<Bookmark, Refusal> {
    link(buffer, mark, UNLINK, time, [child, parent], name)
}

fn link(
    buffer: &mut [u8],
    mark: Bookmark,
    id: u8,
    time: u64,
    [child, parent]: [u64; 2],
    name: &[u8],
) -> Result<Bookmark, Refusal> {
    place(mark, false)?;
    let n = u16::try_from(name.len()).map_err(|_| OVER_LIMIT)?;
    require_text(0, name)?;
    let fields: [&[u8]; 5] = [
        &[id],
        &time.to_le_bytes(),
        &child.to_le_bytes(),
        &parent.to_le_bytes(),
        &n.to_le_bytes(),
    ];
    put(buffer, mark, Some(time), &fields, name)
}

pub fn append_xattr(
    buffer: &mut [u8],
    mark: Bookmark,
    time: u64,
    inode: u64,
    name: &[u8],
    value: &[u8],
) -> Result<Bookmark, Refusal> {
    place(mark, false)?;
    let n = u8::try_from(name.len()).map_err(|_| OVER_LIMIT)?;
    let m = u16::try_from(value.len()).map_err(|_| OVER_LIMIT)?;
    require_text(0, name)?;
    let fields: [&[u8]; 6] = [
        &[XATTR],
        &time.to_le_bytes(),
        &inode.to_le_bytes(),
        &[n],
        &m.to_le_bytes(),
        name,
    ];
    put(buffer, mark, Some(time), &fields, value)
}

pub fn append_removed_xattr(
    buffer: &mut [u8],
    mark: Bookmark,
    time: u64,
    inode: u64,
    name: &[u8],
) -> Result<Bookmark, Refusal> {
    place(mark, false)?;
    let n = u8::try_from(name.len()).map_err(|_| OVER_LIMIT)?;
    require_text(0, name)?;
    let fields: [&[u8]; 4] = [
        &[REMOVED_XATTR],
        &time.to_le_bytes(),
        &inode.to_le_bytes(),
        &[n],
    ];
    put(buffer, mark, Some(time), &fields, name)
}

pub fn append_data(
    buffer: &mut [u8],
    mark: Bookmark,
    time: u64,
    payload: &[u8],
) -> Result<Bookmark, Refusal> {
    place(mark, false)?;
    let n = payload.len() as u64;
    let fields: [&[u8]; 3] = [&[DATA], &time.to_le_bytes(), &n.to_le_bytes()];
    put(buffer, mark, Some(time), &fields, payload)
}

pub fn append_rename(
    buffer: &mut [u8],
    mark: Bookmark,
    time: u64,
    old: &[u8],
    new: &[u8],
) -> Result<Bookmark, Refusal> {
    place(mark, false)?;
    let n = u16::try_from(old.len()).map_err(|_| OVER_LIMIT)?;
    let m = u16::try_from(new.len()).map_err(|_| OVER_LIMIT)?;
    require_text(0, old)?;
    require_text(1, new)?;
    let fields: [&[u8]; 5] = [
        &[RENAME],
        &time.to_le_bytes(),
        &n.to_le_bytes(),
        &m.to_le_bytes(),
        old,
    ];
    put(buffer, mark, Some(time), &fields, new)
}

/// `bytes` are the links as they are to stand in the table.
pub fn append_table(
    buffer: &mut [u8],
    mark: Bookmark,
    count: u64,
    bytes: &[u8],
) -> Result<Bookmark, Refusal> {
    place(mark, true)?;
    if count > LINK_LIMIT {
        return Err(OVER_LIMIT);
    }
    if links::measure(count, bytes) != Some(bytes.len()) {
        return Err(FIELD);
    }
    table_rules(bytes)?;
    let fields: [&[u8]; 2] = [&[TABLE], &count.to_le_bytes()];
    put(buffer, mark, None, &fields, bytes)
}

/// Whether a table, or another block, may stand at the bookmark and can be
/// counted there. Every append asks this first.
fn place(mark: Bookmark, table: bool) -> Result<(), Refusal> {
    if mark.offset < HEADER_LENGTH as u64 || mark.due != table {
        return Err(OUT_OF_PLACE);
    }
    mark.admit_one_more()
}

/// The checks that come last in each append, and then the writing.
fn put(
    buffer: &mut [u8],
    mark: Bookmark,
    time: Option<u64>,
    fields: &[&[u8]],
    tail: &[u8],
) -> Result<Bookmark, Refusal> {
    mark.admit(time)?;
    let length = fields.iter().map(|field| field.len()).sum::<usize>() + tail.len() + CRC;
    let end = match mark.offset.checked_add(length as u64) {
        Some(end) if end <= VOLUME_LIMIT as u64 => end,
        _ => return Err(TOO_LONG),
    };
    let out = buffer
        .get_mut(mark.offset as usize..end as usize)
        .ok_or(NO_ROOM)?;
    fill(out, fields, tail);
    Ok(mark.after(end, time))
}

/// Fills the whole of `out` with the fields, the tail and the checksum.
fn fill(out: &mut [u8], fields: &[&[u8]], tail: &[u8]) {
    let mut at = 0;
    for field in fields.iter().chain(std::iter::once(&tail)) {
        out[at..at + field.len()].copy_from_slice(field);
        at += field.len();
    }
    let value = crc::slicing(&out[..at]);
    out[at..].copy_from_slice(&value.to_le_bytes());
}
