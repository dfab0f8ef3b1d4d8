//! Where reading or writing stands.

use crate::sys;

/// A place between two blocks, from which reading or writing goes on.
///
/// One that is made up is served like any other; see [`Blocks::at`](crate::Blocks::at) and
/// [`Writer::at`](crate::Writer::at).
///
/// ```
/// use hdrfs::{Bookmark, Volume};
/// # std::env::set_current_dir("../../crates/samples/data")?;
///
/// let bytes = std::fs::read("v.vol")?;
/// let end = Volume::check(&bytes)?.end();
/// assert_eq!(end, Bookmark::at(104).with_last_time(Some(7)).with_number(1));
/// # Ok::<(), Box<dyn std::error::Error>>(())
/// ```
#[non_exhaustive]
#[derive(Clone, Copy, Debug, PartialEq, Eq, Hash)]
pub struct Bookmark {
    /// Where the next block begins.
    pub offset: u64,
    /// Whether it has to be a link table.
    pub table_due: bool,
    /// The last time before it, if there was any. After no time and after time 0 the same times may
    /// follow; this tells which of the two it was.
    pub last_time: Option<u64>,
    /// How many blocks come before it, and so the number of the next block: behind the header it is
    /// 0, and behind each block, a link table too, one more. At 2^64 - 1 one more block cannot be
    /// counted: reading or appending it is refused with 9.
    pub number: u64,
}

impl Bookmark {
    /// A made-up bookmark: a place where no link table is due, and before which there was no time
    /// and no block.
    ///
    /// ```
    /// let mark = hdrfs::Bookmark::at(80);
    /// assert_eq!((mark.offset, mark.table_due), (80, false));
    /// assert_eq!((mark.last_time, mark.number), (None, 0));
    /// ```
    #[must_use]
    pub const fn at(offset: u64) -> Bookmark {
        Bookmark {
            offset,
            table_due: false,
            last_time: None,
            number: 0,
        }
    }

    /// The same place, where a link table is due or not.
    ///
    /// ```
    /// assert!(hdrfs::Bookmark::at(80).with_table_due(true).table_due);
    /// ```
    #[must_use]
    pub const fn with_table_due(self, table_due: bool) -> Bookmark {
        Bookmark { table_due, ..self }
    }

    /// The same place after another last time.
    ///
    /// ```
    /// assert_eq!(hdrfs::Bookmark::at(80).with_last_time(Some(0)).last_time, Some(0));
    /// ```
    #[must_use]
    pub const fn with_last_time(self, last_time: Option<u64>) -> Bookmark {
        Bookmark { last_time, ..self }
    }

    /// The same place after another number of blocks.
    ///
    /// ```
    /// use hdrfs::{Blocks, Bookmark};
    /// # std::env::set_current_dir("../../crates/samples/data")?;
    ///
    /// let bytes = std::fs::read("v.vol")?;
    /// let read = |mark| Blocks::at(&bytes, mark).next().unwrap();
    /// let mark = Bookmark::at(80).with_number(17);
    /// assert_eq!(read(mark)?.number, 17);
    /// assert_eq!(read(mark.with_number(u64::MAX)).unwrap_err().number, 9);
    /// # Ok::<(), Box<dyn std::error::Error>>(())
    /// ```
    #[must_use]
    pub const fn with_number(self, number: u64) -> Bookmark {
        Bookmark { number, ..self }
    }

    /// The bookmark with the numbers that the library hands out.
    pub(crate) fn from_numbers(numbers: Numbers) -> Bookmark {
        Bookmark {
            offset: numbers.offset,
            table_due: numbers.due != 0,
            last_time: (numbers.timed != 0).then_some(numbers.last),
            number: numbers.number,
        }
    }

    /// The bookmark after an accepted block.
    pub(crate) fn after(block: &sys::Block) -> Bookmark {
        Bookmark::from_numbers(Numbers {
            offset: block.next,
            due: block.due,
            timed: block.timed,
            last: block.last,
            number: block.next_number,
        })
    }

    /// The numbers that the library takes for it.
    pub(crate) fn numbers(&self) -> Numbers {
        Numbers {
            offset: self.offset,
            due: u64::from(self.table_due),
            timed: u64::from(self.last_time.is_some()),
            last: self.last_time.unwrap_or(0),
            number: self.number,
        }
    }
}

/// A bookmark as the library takes it and hands it out.
#[derive(Clone, Copy, Debug)]
pub(crate) struct Numbers {
    pub(crate) offset: u64,
    /// 0: no link table is due.
    pub(crate) due: u64,
    /// 0: there is no last time.
    pub(crate) timed: u64,
    /// See `timed`.
    pub(crate) last: u64,
    pub(crate) number: u64,
}
