//! One block, read by a bookmark.

use crate::bytes::{u16_at, u32_at, u64_at};
use crate::links::{self, Links};
use crate::refusal::*;
use crate::utf8::require_text;
use crate::{crc, extent, EXTENT_LIMIT, HEADER_LENGTH, LINK_LIMIT, VOLUME_LIMIT};

pub const INODE: u8 = 1;
pub const LINK: u8 = 2;
pub const UNLINK: u8 = 3;
pub const XATTR: u8 = 4;
pub const REMOVED_XATTR: u8 = 5;
pub const DATA: u8 = 6;
pub const RENAME: u8 = 7;
pub const TABLE: u8 = 8;

/// Bytes of a checksum.
pub(crate) const CRC: usize = 4;

/// The most bytes that extents of one file take.
pub(crate) const EXTENT_BYTES: u64 = EXTENT_LIMIT * extent::EXTENT_LENGTH as u64;

/// Where reading or writing goes on.
#[derive(Clone, Copy, Debug, PartialEq, Eq)]
pub struct Bookmark {
    pub offset: u64,
    /// Whether a link table must come next.
    pub due: bool,
    /// The time of the last block that had one.
    pub last: Option<u64>,
    /// How many blocks stand before it, a table among them.
    pub number: u64,
}

impl Bookmark {
    /// A place where no table must come next and before which there is no
    /// time and no block.
    pub const fn at(offset: u64) -> Bookmark {
        Bookmark {
            offset,
            due: false,
            last: None,
            number: 0,
        }
    }

    /// The same with so many blocks before it.
    #[must_use]
    pub const fn numbered(self, number: u64) -> Bookmark {
        Bookmark { number, ..self }
    }

    /// Refuses a time that is lower than the last one before it. It may be
    /// the same: two blocks can be logged in one microsecond.
    #[inline]
    pub(crate) fn admit(self, time: Option<u64>) -> Result<(), Refusal> {
        match (self.last, time) {
            (Some(last), Some(time)) if time < last => Err(TIME_LOWER),
            _ => Ok(()),
        }
    }

    /// Refuses one more block where the number after it would not fit.
    #[inline]
    pub(crate) fn admit_one_more(self) -> Result<(), Refusal> {
        if self.number == u64::MAX {
            return Err(OVER_LIMIT);
        }
        Ok(())
    }

    /// The bookmark after a block that begins here, ends at `end` and has this
    /// time. The block was admitted, so there is a number after this one.
    #[inline]
    pub(crate) fn after(self, end: u64, time: Option<u64>) -> Bookmark {
        Bookmark {
            offset: end,
            due: false,
            last: time.or(self.last),
            number: self.number + 1,
        }
    }
}

/// A part of a volume and where it begins in it.
#[derive(Clone, Copy, Debug, PartialEq, Eq)]
pub struct Part<'a> {
    pub start: u64,
    pub bytes: &'a [u8],
}

/// The numbers of an inode block.
#[derive(Clone, Copy, Debug, PartialEq, Eq)]
pub struct Stat {
    pub inode: u64,
    pub time: u64,
    pub mode: u16,
    pub uid: u16,
    pub gid: u16,
    pub atime: u64,
    pub mtime: u64,
    pub ctime: u64,
    pub btime: u64,
    pub size: u64,
}

impl Stat {
    pub fn is_regular(&self) -> bool {
        self.mode >> 12 == 8
    }

    pub fn is_symbolic_link(&self) -> bool {
        self.mode >> 12 == 10
    }
}

#[derive(Clone, Copy, Debug, PartialEq, Eq)]
pub enum Body<'a> {
    /// The variable part holds extents, a link target or nothing.
    Inode {
        stat: Stat,
        variable: Part<'a>,
    },
    Link {
        child: u64,
        parent: u64,
        name: Part<'a>,
    },
    Unlink {
        child: u64,
        parent: u64,
        name: Part<'a>,
    },
    Xattr {
        inode: u64,
        name: Part<'a>,
        value: Part<'a>,
    },
    RemovedXattr {
        inode: u64,
        name: Part<'a>,
    },
    Data {
        payload: Part<'a>,
    },
    Rename {
        old: Part<'a>,
        new: Part<'a>,
    },
    Table {
        count: u64,
        links: Part<'a>,
    },
}

#[derive(Clone, Copy, Debug, PartialEq, Eq)]
pub struct Block<'a> {
    pub id: u8,
    /// How many blocks stand before it: the bookmark's number.
    pub number: u64,
    pub offset: u64,
    /// Bytes of the whole block, checksum included.
    pub length: u64,
    /// Every block but a table has one.
    pub time: Option<u64>,
    pub body: Body<'a>,
}

#[derive(Clone, Copy, Debug, PartialEq, Eq)]
pub enum Reading<'a> {
    End,
    Block(Block<'a>, Bookmark),
}

/// Reads the block at the bookmark.
pub fn read(volume: &[u8], mark: Bookmark) -> Result<Reading<'_>, Refusal> {
    read_with(volume, mark, crc::slicing)
}

/// Like [`read`], with a chosen form of the checksum.
#[inline]
pub fn read_with(
    volume: &[u8],
    mark: Bookmark,
    crc: impl Fn(&[u8]) -> u32,
) -> Result<Reading<'_>, Refusal> {
    if volume.len() > VOLUME_LIMIT {
        return Err(TOO_LONG);
    }
    if mark.offset < HEADER_LENGTH as u64 {
        return Err(OUT_OF_PLACE);
    }
    if mark.offset > volume.len() as u64 {
        return Err(ENDS_EARLY);
    }
    let rest = &volume[mark.offset as usize..];
    let Some(&id) = rest.first() else {
        return if mark.due {
            Err(ENDS_EARLY)
        } else {
            Ok(Reading::End)
        };
    };
    if !(INODE..=TABLE).contains(&id) {
        return Err(UNKNOWN_ID);
    }
    if mark.due != (id == TABLE) {
        return Err(OUT_OF_PLACE);
    }
    let covered = measure(id, rest)?;
    let (image, after) = rest.split_at(covered);
    if crc(image) != u32_at(after, 0) {
        return Err(CHECKSUM);
    }
    let (body, time) = decode(id, image, mark.offset)?;
    mark.admit(time)?;
    mark.admit_one_more()?;
    let length = (covered + CRC) as u64;
    let block = Block {
        id,
        number: mark.number,
        offset: mark.offset,
        length,
        time,
        body,
    };
    let next = mark.after(mark.offset + length, time);
    Ok(Reading::Block(block, next))
}

/// Bytes before the first variable part.
const fn fixed_length(id: u8) -> usize {
    match id {
        INODE => 71,
        LINK | UNLINK => 27,
        XATTR => 20,
        REMOVED_XATTR => 18,
        DATA => 17,
        RENAME => 13,
        _ => 9,
    }
}

/// How many bytes stand before the checksum of the block at the front, if
/// these and the checksum are all there and no limit is passed.
fn measure(id: u8, rest: &[u8]) -> Result<usize, Refusal> {
    let fixed = fixed_length(id);
    let (fields, tail) = rest.split_at_checked(fixed).ok_or(ENDS_EARLY)?;
    let short = |at| u64::from(u16_at(fields, at));
    let variable = match id {
        INODE => {
            let n = u64_at(fields, 63);
            if u16_at(fields, 17) >> 12 == 8 && n > EXTENT_BYTES {
                return Err(OVER_LIMIT);
            }
            n
        }
        LINK | UNLINK => short(25),
        XATTR => u64::from(fields[17]) + short(18),
        REMOVED_XATTR => u64::from(fields[17]),
        DATA => u64_at(fields, 9),
        RENAME => short(9) + short(11),
        _ => {
            let count = u64_at(fields, 1);
            if count > LINK_LIMIT {
                return Err(OVER_LIMIT);
            }
            links::measure(count, tail).ok_or(ENDS_EARLY)? as u64
        }
    };
    match tail.len().checked_sub(CRC) {
        Some(room) if variable <= room as u64 => Ok(fixed + variable as usize),
        _ => Err(ENDS_EARLY),
    }
}

/// Takes a measured block apart and applies the rules on its contents. The
/// second answer is its time.
#[inline]
fn decode(id: u8, image: &[u8], offset: u64) -> Result<(Body<'_>, Option<u64>), Refusal> {
    let part = |from: usize, to: usize| Part {
        start: offset + from as u64,
        bytes: &image[from..to],
    };
    // The text of this place among those of the block.
    let text = |place: u64, from: usize, to: usize| {
        require_text(place, &image[from..to])?;
        Ok(part(from, to))
    };
    let number = |at| u64_at(image, at);
    let end = image.len();
    let body = match id {
        INODE => {
            let stat = Stat {
                inode: number(1),
                time: number(9),
                mode: u16_at(image, 17),
                uid: u16_at(image, 19),
                gid: u16_at(image, 21),
                atime: number(23),
                mtime: number(31),
                ctime: number(39),
                btime: number(47),
                size: number(55),
            };
            let variable = part(71, end);
            inode_rules(&stat, variable.bytes)?;
            return Ok((Body::Inode { stat, variable }, Some(stat.time)));
        }
        LINK | UNLINK => {
            let (child, parent, name) = (number(9), number(17), text(0, 27, end)?);
            if id == LINK {
                Body::Link {
                    child,
                    parent,
                    name,
                }
            } else {
                Body::Unlink {
                    child,
                    parent,
                    name,
                }
            }
        }
        XATTR => {
            let middle = 20 + usize::from(image[17]);
            Body::Xattr {
                inode: number(9),
                name: text(0, 20, middle)?,
                value: part(middle, end),
            }
        }
        REMOVED_XATTR => Body::RemovedXattr {
            inode: number(9),
            name: text(0, 18, end)?,
        },
        DATA => Body::Data {
            payload: part(17, end),
        },
        RENAME => {
            let middle = 13 + usize::from(u16_at(image, 9));
            Body::Rename {
                old: text(0, 13, middle)?,
                new: text(1, middle, end)?,
            }
        }
        _ => {
            let links = part(9, end);
            table_rules(links.bytes)?;
            let count = number(1);
            return Ok((Body::Table { count, links }, None));
        }
    };
    Ok((body, Some(number(1))))
}

/// The rules on an inode's fields, but for its limit and its time.
pub(crate) fn inode_rules(stat: &Stat, variable: &[u8]) -> Result<(), Refusal> {
    if stat.is_regular() {
        if !extent::each_allowed(variable) {
            return Err(FIELD);
        }
        if extent::overlap(variable) {
            return Err(OVERLAP);
        }
    } else if stat.is_symbolic_link() {
        require_text(0, variable)?;
        if stat.size != 70 + variable.len() as u64 {
            return Err(FIELD);
        }
    } else if !variable.is_empty() || stat.size != 70 {
        return Err(FIELD);
    }
    Ok(())
}

/// The rules on the contents of a table whose links fill these bytes.
pub(crate) fn table_rules(bytes: &[u8]) -> Result<(), Refusal> {
    for (place, link) in (0..).zip(Links::new(bytes)) {
        require_text(place, link.name)?;
    }
    if links::twice(bytes) {
        return Err(LINK_TWICE);
    }
    Ok(())
}
