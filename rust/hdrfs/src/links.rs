//! The links of a link table.

use std::fmt;
use std::hash::{Hash, Hasher};
use std::iter::FusedIterator;

use crate::blocks::{part, text};
use crate::{sys, Refusal};

/// One link: a name under a parent, and what it stands for.
///
/// ```
/// use hdrfs::{Content, Volume};
/// # std::env::set_current_dir("../../crates/samples/data")?;
///
/// let bytes = std::fs::read("all_kinds.vol")?;
/// let block = Volume::blocks(&bytes).nth(4).unwrap()?;
/// let Content::Link(link) = block.content else { panic!("no link") };
/// assert_eq!((link.child, link.parent, link.name), (8, 1, "gauge"));
/// # Ok::<(), Box<dyn std::error::Error>>(())
/// ```
#[derive(Clone, Copy, Debug, PartialEq, Eq, Hash)]
pub struct Link<'a> {
    /// The child's inode number.
    pub child: u64,
    /// The parent's inode number.
    pub parent: u64,
    /// The name.
    pub name: &'a str,
}

/// A link table. Two are equal if they have the same links, wherever they stand.
///
/// ```
/// use hdrfs::{Content, Volume};
/// # std::env::set_current_dir("../../crates/samples/data")?;
///
/// let bytes = std::fs::read("all_kinds.vol")?;
/// let block = Volume::blocks(&bytes).next().unwrap()?;
/// let Content::LinkTable(table) = block.content else { panic!("no table") };
/// for link in table {
///     println!("{} is {} in {}", link.child, link.name, link.parent);
/// }
/// # Ok::<(), Box<dyn std::error::Error>>(())
/// ```
#[derive(Clone, Copy)]
pub struct LinkTable<'a> {
    links: &'a [u8],
    count: usize,
    /// Where it was read, since the library reads it again to list the tree.
    volume: &'a [u8],
    offset: u64,
    number: u64,
}

impl<'a> LinkTable<'a> {
    /// The table that was read at an offset.
    pub(crate) fn new(volume: &'a [u8], offset: u64, block: &sys::Block) -> LinkTable<'a> {
        LinkTable {
            links: part(volume, block.part, block.part_len),
            count: block.count as usize,
            volume,
            offset,
            number: block.number,
        }
    }

    /// Stores the lines of the tree below a folder, and answers how many there are.
    pub(crate) fn list(&self, root: u64, out: &mut [u64]) -> Result<usize, Refusal> {
        let LinkTable { offset, number, .. } = *self;
        // A table has no time, so that none before it can make a difference.
        let answer = sys::tree(self.volume, offset, 0, 0, number, root, out);
        Refusal::unless_accepted(&answer, offset, Some(number))?;
        Ok(answer.lines as usize)
    }

    /// How many links it has.
    ///
    /// ```
    /// use hdrfs::{Content, Volume};
    /// # std::env::set_current_dir("../../crates/samples/data")?;
    ///
    /// let bytes = std::fs::read("all_kinds.vol")?;
    /// let block = Volume::blocks(&bytes).next().unwrap()?;
    /// let Content::LinkTable(table) = block.content else { panic!("no table") };
    /// assert_eq!(table.len(), 2);
    /// # Ok::<(), Box<dyn std::error::Error>>(())
    /// ```
    #[must_use]
    pub fn len(&self) -> usize {
        self.count
    }

    /// Whether it has no links.
    ///
    /// ```
    /// use hdrfs::{Content, Volume};
    /// # std::env::set_current_dir("../../crates/samples/data")?;
    ///
    /// let bytes = std::fs::read("empty_table.vol")?;
    /// let block = Volume::blocks(&bytes).next().unwrap()?;
    /// let Content::LinkTable(table) = block.content else { panic!("no table") };
    /// assert!(table.is_empty());
    /// # Ok::<(), Box<dyn std::error::Error>>(())
    /// ```
    #[must_use]
    pub fn is_empty(&self) -> bool {
        self.count == 0
    }

    /// The bytes of its links, as they stand in the volume.
    ///
    /// ```
    /// use hdrfs::{Content, Volume};
    /// # std::env::set_current_dir("../../crates/samples/data")?;
    ///
    /// let bytes = std::fs::read("all_kinds.vol")?;
    /// let block = Volume::blocks(&bytes).next().unwrap()?;
    /// let Content::LinkTable(table) = block.content else { panic!("no table") };
    /// assert_eq!(table.bytes(), &bytes[89..133]);
    /// # Ok::<(), Box<dyn std::error::Error>>(())
    /// ```
    #[must_use]
    pub fn bytes(&self) -> &'a [u8] {
        self.links
    }

    /// Its links, one after the other.
    ///
    /// ```
    /// use hdrfs::{Content, Volume};
    /// # std::env::set_current_dir("../../crates/samples/data")?;
    ///
    /// let bytes = std::fs::read("all_kinds.vol")?;
    /// let block = Volume::blocks(&bytes).next().unwrap()?;
    /// let Content::LinkTable(table) = block.content else { panic!("no table") };
    /// let names: Vec<&str> = table.iter().map(|link| link.name).collect();
    /// assert_eq!(names, ["gauge", "log"]);
    /// # Ok::<(), Box<dyn std::error::Error>>(())
    /// ```
    #[must_use]
    pub fn iter(&self) -> Links<'a> {
        Links::of(self.links, self.count as u64)
    }
}

/// What it has, and not where it stands: the volume may have many millions of bytes.
impl fmt::Debug for LinkTable<'_> {
    fn fmt(&self, f: &mut fmt::Formatter<'_>) -> fmt::Result {
        let mut shown = f.debug_struct("LinkTable");
        shown.field("links", &self.links);
        shown.field("count", &self.count).finish()
    }
}

impl PartialEq for LinkTable<'_> {
    fn eq(&self, other: &LinkTable<'_>) -> bool {
        (self.links, self.count) == (other.links, other.count)
    }
}

impl Eq for LinkTable<'_> {}

impl Hash for LinkTable<'_> {
    fn hash<H: Hasher>(&self, state: &mut H) {
        (self.links, self.count).hash(state);
    }
}

impl<'a> IntoIterator for LinkTable<'a> {
    type Item = Link<'a>;
    type IntoIter = Links<'a>;

    fn into_iter(self) -> Links<'a> {
        self.iter()
    }
}

impl<'a> IntoIterator for &LinkTable<'a> {
    type Item = Link<'a>;
    type IntoIter = Links<'a>;

    fn into_iter(self) -> Links<'a> {
        self.iter()
    }
}

/// The links of a table, one after the other.
///
/// ```
/// use hdrfs::{Content, Links, Volume};
/// # std::env::set_current_dir("../../crates/samples/data")?;
///
/// let bytes = std::fs::read("all_kinds.vol")?;
/// let block = Volume::blocks(&bytes).next().unwrap()?;
/// let Content::LinkTable(table) = block.content else { panic!("no table") };
/// let mut links: Links = table.iter();
/// assert_eq!(links.next().unwrap().name, "gauge");
/// assert_eq!(links.len(), 1);
/// # Ok::<(), Box<dyn std::error::Error>>(())
/// ```
#[derive(Clone, Debug)]
pub struct Links<'a> {
    links: &'a [u8],
    at: u64,
    left: usize,
}

impl<'a> Links<'a> {
    /// Those of an accepted table with these bytes and so many links.
    pub(crate) fn of(links: &'a [u8], count: u64) -> Links<'a> {
        Links {
            links,
            at: 0,
            left: count as usize,
        }
    }

    /// The next link, with the place of its name in the bytes of the links.
    pub(crate) fn next_entry(&mut self) -> Option<sys::LinkEntry> {
        self.left = self.left.checked_sub(1)?;
        let entry = sys::link(self.links, self.at);
        // The table was accepted, so all its links are there. To stop early would hide some.
        assert_eq!(entry.missing, 0, "an accepted table has all its links");
        self.at = entry.next;
        Some(entry)
    }
}

impl<'a> Iterator for Links<'a> {
    type Item = Link<'a>;

    fn next(&mut self) -> Option<Link<'a>> {
        let entry = self.next_entry()?;
        Some(Link {
            child: entry.child,
            parent: entry.parent,
            name: text(part(self.links, entry.name, entry.name_len)),
        })
    }

    fn size_hint(&self) -> (usize, Option<usize>) {
        (self.left, Some(self.left))
    }
}

impl ExactSizeIterator for Links<'_> {}

impl FusedIterator for Links<'_> {}
