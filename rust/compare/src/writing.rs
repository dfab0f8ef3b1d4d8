//! Appends and header writers: the answer, and every byte of the buffer.

use generator::rng::Rng;
use generator::{number, time};
use hdrfs::sys::{self, Written};
use independent::{self as plain, Bookmark, Refusal};

use crate::answers::{self, Told};
use crate::difference::{same, same_list, Answer};
use crate::requests::Request;

/// Appends with both to copies of the buffer, and leaves in it what both wrote. Answers the refusal,
/// whose number is 0 for none, and the bookmark after the block, or the same bookmark where the block
/// is refused.
pub fn append(
    buffer: &mut [u8],
    mark: Bookmark,
    request: &Request,
) -> Result<(Refusal, Bookmark), crate::Difference> {
    let mut other = buffer.to_vec();
    let expected = independently(&mut other, mark, request);
    let written = proved(buffer, mark, request);
    let question = || format!("append of {request:?} at {mark:?}");
    same(written, answers::written(expected), question)?;
    same_list(buffer, &other, question)?;
    Ok((written.told(), expected.unwrap_or(mark)))
}

/// What the independent implementation would refuse the append with if no block were before the
/// bookmark; 0 for nothing.
pub fn refusal_from_0(buffer: &[u8], mark: Bookmark, request: &Request) -> u64 {
    let answer = independently(&mut buffer.to_vec(), mark.numbered(0), request);
    answer.err().map_or(0, |refusal| refusal.number)
}

/// The same if each text at fault were another one of its length.
pub fn refusal_with_sound_texts(buffer: &[u8], mark: Bookmark, request: &Request) -> u64 {
    let mut request = request.clone();
    request.mend_texts();
    let answer = independently(&mut buffer.to_vec(), mark, &request);
    answer.err().map_or(0, |refusal| refusal.number)
}

/// Writes a header with both.
pub fn header(buffer: &mut [u8], id: &[u8], sequence: u64, previous: &[u8]) -> Answer {
    let mut other = buffer.to_vec();
    let expected = plain::write_header(&mut other, id, sequence, previous);
    let written = sys::write_header(buffer, id, sequence, previous);
    let question = || format!("header {sequence}, {id:?}, {previous:?}");
    same(written, answers::written(expected), question)?;
    same_list(buffer, &other, question)?;
    Ok(written.told())
}

/// A bookmark that no call handed out. Its last time is often near the time that is asked for.
pub fn made_up(rng: &mut Rng, room: usize, time: Option<u64>) -> Bookmark {
    let offset = match rng.below(6) {
        0 => rng.below(80),
        1 => rng.number(),
        2 => 16_777_216 - rng.below(200),
        _ => 80 + rng.below(room as u64 + 1),
    };
    let last = match (rng.below(4), time) {
        (0, _) => None,
        (1, _) | (_, None) => Some(rng.number()),
        (_, Some(time)) => Some(time::around(rng, time)),
    };
    Bookmark {
        offset,
        due: rng.once_in(3),
        last,
        number: number::made_up(rng),
    }
}

fn proved(buf: &mut [u8], mark: Bookmark, request: &Request) -> Written {
    let (offset, due, number) = (mark.offset, u64::from(mark.due), mark.number);
    let (timed, last) = (u64::from(mark.last.is_some()), mark.last.unwrap_or(0));
    macro_rules! append {
        ($call:ident($($field:expr),*)) => {
            sys::$call(buf, offset, due, timed, last, number, $($field),*)
        };
    }
    match request {
        Request::Inode(s, rest) => append!(append_inode(
            s.inode, s.time, s.mode, s.uid, s.gid, s.atime, s.mtime, s.ctime, s.btime, s.size, rest
        )),
        Request::Link(time, [child, parent], name) => {
            append!(append_link(*time, *child, *parent, name))
        }
        Request::Unlink(time, [child, parent], name) => {
            append!(append_unlink(*time, *child, *parent, name))
        }
        Request::Xattr(time, inode, name, value) => {
            append!(append_xattr(*time, *inode, name, value))
        }
        Request::RemovedXattr(time, inode, name) => {
            append!(append_removed_xattr(*time, *inode, name))
        }
        Request::Data(time, payload) => append!(append_data(*time, payload)),
        Request::Rename(time, old, new) => append!(append_rename(*time, old, new)),
        Request::Table(count, links) => append!(append_table(*count, links)),
    }
}

fn independently(buf: &mut [u8], mark: Bookmark, request: &Request) -> Result<Bookmark, Refusal> {
    match request {
        Request::Inode(stat, rest) => plain::append_inode(buf, mark, stat, rest),
        Request::Link(time, [child, parent], name) => {
            plain::append_link(buf, mark, *time, *child, *parent, name)
        }
        Request::Unlink(time, [child, parent], name) => {
            plain::append_unlink(buf, mark, *time, *child, *parent, name)
        }
        Request::Xattr(time, inode, name, value) => {
            plain::append_xattr(buf, mark, *time, *inode, name, value)
        }
        Request::RemovedXattr(time, inode, name) => {
            plain::append_removed_xattr(buf, mark, *time, *inode, name)
        }
        Request::Data(time, payload) => plain::append_data(buf, mark, *time, payload),
        Request::Rename(time, old, new) => plain::append_rename(buf, mark, *time, old, new),
        Request::Table(count, links) => plain::append_table(buf, mark, *count, links),
    }
}
