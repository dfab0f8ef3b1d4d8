//! The tree below a folder, line by line.

use std::fmt;
use std::iter::FusedIterator;
use std::sync::Arc;

use crate::{Link, LinkTable, Refusal};

/// How many numbers a line takes.
const LINE_LEN: usize = 2;

impl<'a> LinkTable<'a> {
    /// Lists the tree below a folder, given its inode number: for each link in it, in the order of the
    /// table, a line, and right behind it the lines of what its child holds, and so on down.
    ///
    /// A link is listed once for each path that leads to it. A root that is no link's parent has no
    /// lines. What is refused:
    ///
    /// - A line at depth 32, counted from 0, with [`TOO_DEEP`](Refusal::TOO_DEEP). So links that lead
    ///   around in a loop end in a refusal.
    /// - More lines than [`Tree::MAX_LINES`], with [`NO_ROOM`](Refusal::NO_ROOM). Where each folder
    ///   has one link there are no more lines than the table has links, 4,096 at most; but thirty
    ///   folders in each other with two links each have more than two thousand million.
    ///
    /// Of the two, the one whose line comes first in the listing decides. The names are parts of the
    /// volume that the table stands in.
    ///
    /// ```
    /// use hdrfs::{Link, LinkList, Volume, Writer};
    ///
    /// let link = |child, parent, name| Link { child, parent, name };
    /// let links = LinkList::new()
    ///     .push(link(2, 1, "north"))?
    ///     .push(link(7, 2, "gauge.csv"))?
    ///     .push(link(8, 1, "log"))?;
    /// let mut buf = [0; 200];
    /// let mut writer = Writer::create(&mut buf, &[1; 16], 1, &[2; 32])?;
    /// writer.append_links(&links)?;
    ///
    /// let mut shown = String::new();
    /// for line in Volume::link_table(writer.written())?.tree(1)? {
    ///     shown += &format!("{}{} is {}\n", "  ".repeat(line.depth), line.name, line.child);
    /// }
    /// assert_eq!(shown, "north is 2\n  gauge.csv is 7\nlog is 8\n");
    /// # Ok::<(), hdrfs::Refusal>(())
    /// ```
    pub fn tree(&self, root: u64) -> Result<Tree<'a>, Refusal> {
        self.tree_within(root, Tree::MAX_LINES)
    }

    /// The same with another limit of lines. They are kept in memory, each in 16 bytes, or 32 where
    /// there is more room than lines.
    ///
    /// ```
    /// use hdrfs::Volume;
    /// # std::env::set_current_dir("../../crates/samples/data")?;
    ///
    /// let bytes = std::fs::read("all_kinds.vol")?;
    /// let table = Volume::link_table(&bytes)?;
    /// assert_eq!(table.tree_within(1, 2)?.len(), 2);
    /// let refusal = table.tree_within(1, 1).unwrap_err();
    /// assert_eq!(refusal.to_string(), "refused 17 at 80 (block 0): no room for the result");
    /// # Ok::<(), Box<dyn std::error::Error>>(())
    /// ```
    pub fn tree_within(&self, root: u64, lines: usize) -> Result<Tree<'a>, Refusal> {
        let numbers = numbers(self, root, lines)?;
        let links = self.iter().collect();
        Ok(Tree {
            listing: Arc::new(Listing { numbers, links }),
            next: 0,
        })
    }
}

/// The numbers of all lines. Nobody knows how many there are before they are listed, and there may be
/// very many. So the room is doubled until it does, and only what is needed is ever taken.
fn numbers(table: &LinkTable<'_>, root: u64, most: usize) -> Result<Vec<u64>, Refusal> {
    // This does unless there are two paths to a folder.
    let mut room = table.len().min(most);
    loop {
        let mut numbers = vec![0; room * LINE_LEN];
        match table.list(root, &mut numbers) {
            Ok(lines) => {
                numbers.truncate(lines * LINE_LEN);
                return Ok(numbers);
            }
            Err(refusal) if refusal.number == Refusal::NO_ROOM && room < most => {
                room = room.saturating_mul(2).min(most);
            }
            Err(refusal) => return Err(refusal),
        }
    }
}

/// A line of the tree below a folder: a link, and how deep it stands.
///
/// ```
/// # std::env::set_current_dir("../../crates/samples/data")?;
/// let bytes = std::fs::read("all_kinds.vol")?;
/// let line = hdrfs::Volume::link_table(&bytes)?.tree(1)?.nth(1).unwrap();
/// assert_eq!((line.depth, line.place, line.child, line.name), (0, 1, 9, "log"));
/// # Ok::<(), Box<dyn std::error::Error>>(())
/// ```
#[non_exhaustive]
#[derive(Clone, Copy, Debug, PartialEq, Eq, Hash)]
pub struct TreeLine<'a> {
    /// How many links lie between it and the root: 0 to 31.
    pub depth: usize,
    /// The place of the link among the links of the table, counted from 0.
    pub place: usize,
    /// The child's inode number.
    pub child: u64,
    /// The name.
    pub name: &'a str,
}

/// The lines of the tree below a folder, one after the other. To clone it copies no lines.
///
/// ```
/// use hdrfs::{Tree, Volume};
/// # std::env::set_current_dir("../../crates/samples/data")?;
///
/// let bytes = std::fs::read("all_kinds.vol")?;
/// let mut tree: Tree = Volume::link_table(&bytes)?.tree(1)?;
/// assert_eq!(tree.next().unwrap().name, "gauge");
/// assert_eq!(tree.len(), 1);
/// # Ok::<(), Box<dyn std::error::Error>>(())
/// ```
#[derive(Clone)]
pub struct Tree<'a> {
    listing: Arc<Listing<'a>>,
    /// How many lines were handed out.
    next: usize,
}

/// All lines, and the links that they are about, so that each is found by its place.
struct Listing<'a> {
    numbers: Vec<u64>,
    links: Vec<Link<'a>>,
}

impl Tree<'_> {
    /// The most lines that [`LinkTable::tree`] lists: sixteen for each link of the largest table. They
    /// take 1 MiB. The limit bounds the time of a listing, too, since each line is followed down.
    ///
    /// ```
    /// assert_eq!(hdrfs::Tree::MAX_LINES, 65_536);
    /// ```
    pub const MAX_LINES: usize = 65_536;
}

impl<'a> Listing<'a> {
    fn len(&self) -> usize {
        self.numbers.len() / LINE_LEN
    }

    fn line(&self, index: usize) -> Option<TreeLine<'a>> {
        let numbers = self.numbers.get(index * LINE_LEN..)?.get(..LINE_LEN)?;
        let (depth, place) = (numbers[0] as usize, numbers[1] as usize);
        let Link { child, name, .. } = self.links[place];
        Some(TreeLine {
            depth,
            place,
            child,
            name,
        })
    }
}

impl<'a> Iterator for Tree<'a> {
    type Item = TreeLine<'a>;

    fn next(&mut self) -> Option<TreeLine<'a>> {
        let line = self.listing.line(self.next)?;
        self.next += 1;
        Some(line)
    }

    fn size_hint(&self) -> (usize, Option<usize>) {
        let left = self.listing.len() - self.next;
        (left, Some(left))
    }
}

impl ExactSizeIterator for Tree<'_> {}

impl FusedIterator for Tree<'_> {}

/// Without the lines, which may be very many.
impl fmt::Debug for Tree<'_> {
    fn fmt(&self, f: &mut fmt::Formatter<'_>) -> fmt::Result {
        let mut shown = f.debug_struct("Tree");
        shown.field("lines", &self.listing.len());
        shown.field("next", &self.next).finish()
    }
}
