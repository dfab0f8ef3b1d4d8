//! Links inside a link table.

use crate::bytes::{u16_at, u64_at};

/// Bytes of a link before its name.
const FIXED: usize = 18;

#[derive(Clone, Copy, Debug, PartialEq, Eq)]
pub struct Link<'a> {
    pub child: u64,
    pub parent: u64,
    pub name: &'a [u8],
}

/// The links that stand whole at the front of some bytes, one after another.
#[derive(Clone, Copy, Debug)]
pub struct Links<'a> {
    rest: &'a [u8],
}

impl<'a> Links<'a> {
    pub fn new(bytes: &'a [u8]) -> Links<'a> {
        Links { rest: bytes }
    }
}

impl<'a> Iterator for Links<'a> {
    type Item = Link<'a>;

    fn next(&mut self) -> Option<Link<'a>> {
        let fields: &[u8; FIXED] = self.rest.first_chunk()?;
        let end = FIXED + usize::from(u16_at(fields, 16));
        let name = self.rest.get(FIXED..end)?;
        self.rest = &self.rest[end..];
        Some(Link {
            child: u64_at(fields, 0),
            parent: u64_at(fields, 8),
            name,
        })
    }
}

/// How many bytes so many links take, if they all stand there.
pub(crate) fn measure(count: u64, bytes: &[u8]) -> Option<usize> {
    let mut links = Links::new(bytes);
    for _ in 0..count {
        links.next()?;
    }
    Some(bytes.len() - links.rest.len())
}

/// Whether two links have one parent and one name.
pub(crate) fn twice(bytes: &[u8]) -> bool {
    let mut keys: Vec<(u64, &[u8])> = Links::new(bytes)
        .map(|link| (link.parent, link.name))
        .collect();
    // Only equal keys need to meet, so the cheap comparisons go first.
    keys.sort_unstable_by(|a, b| (a.0, a.1.len(), a.1).cmp(&(b.0, b.1.len(), b.1)));
    keys.windows(2).any(|pair| pair[0] == pair[1])
}
