//! The links of a table that is to be written.

use crate::{Link, Refusal};

/// A list of links for a link table that is to be written, so that nobody lays out its bytes by
/// hand.
///
/// What the rules say about links the writer decides when the table is appended.
///
/// ```
/// use hdrfs::{Link, LinkList, Writer};
///
/// let links = LinkList::new()
///     .push(Link { child: 7, parent: 1, name: "gauge.csv" })?
///     .push(Link { child: 8, parent: 1, name: "river.csv" })?;
/// let mut buf = [0; 200];
/// let mut writer = Writer::create(&mut buf, &[1; 16], 1, &[2; 32])?;
/// writer.append_links(&links)?;
/// # Ok::<(), hdrfs::Refusal>(())
/// ```
#[must_use]
#[derive(Clone, Debug, Default, PartialEq, Eq)]
pub struct LinkList {
    bytes: Vec<u8>,
    count: usize,
}

impl LinkList {
    /// No links yet.
    ///
    /// ```
    /// assert!(hdrfs::LinkList::new().is_empty());
    /// ```
    pub fn new() -> LinkList {
        LinkList::default()
    }

    /// The list with a link more. A name of more than 65,535 bytes is refused with 9: a link has no
    /// room for its length.
    ///
    /// ```
    /// use hdrfs::{Link, LinkList};
    ///
    /// let long = "x".repeat(65_536);
    /// let link = |name| Link { child: 7, parent: 1, name };
    /// assert_eq!(LinkList::new().push(link(&long)).unwrap_err().number, 9);
    /// assert_eq!(LinkList::new().push(link(&long[1..]))?.len(), 1);
    /// # Ok::<(), hdrfs::Refusal>(())
    /// ```
    pub fn push(mut self, link: Link<'_>) -> Result<LinkList, Refusal> {
        let name = link.name.as_bytes();
        let over = |_| Refusal::new(Refusal::OVER_LIMIT, 0);
        let len = u16::try_from(name.len()).map_err(over)?;
        self.bytes.extend(link.child.to_le_bytes());
        self.bytes.extend(link.parent.to_le_bytes());
        self.bytes.extend(len.to_le_bytes());
        self.bytes.extend(name);
        self.count += 1;
        Ok(self)
    }

    /// How many links it has.
    ///
    /// ```
    /// assert_eq!(hdrfs::LinkList::new().len(), 0);
    /// ```
    #[must_use]
    pub fn len(&self) -> usize {
        self.count
    }

    /// Whether it has no links.
    ///
    /// ```
    /// assert!(hdrfs::LinkList::new().is_empty());
    /// ```
    #[must_use]
    pub fn is_empty(&self) -> bool {
        self.count == 0
    }

    /// The bytes, as a link table has them.
    ///
    /// ```
    /// use hdrfs::{Link, LinkList};
    ///
    /// let links = LinkList::new().push(Link { child: 8, parent: 1, name: "log" })?;
    /// assert_eq!(links.as_bytes().len(), 18 + 3);
    /// # Ok::<(), hdrfs::Refusal>(())
    /// ```
    #[must_use]
    pub fn as_bytes(&self) -> &[u8] {
        &self.bytes
    }
}
