//! Links of tables.

use hdrfs::sys;
use independent::links::Links;
use independent::{Block, Body};

use crate::difference::{same, Difference};

/// All links of a table, and what is found elsewhere in its bytes.
pub fn of_block(block: &Block<'_>) -> Result<(), Difference> {
    let Body::Table { count, links } = block.body else {
        return Ok(());
    };
    let links = links.bytes;
    let mut at = 0;
    for _ in 0..count {
        link(links, at)?;
        at = sys::link(links, at).next;
    }
    same(at, links.len() as u64, || "end of the last link".into())?;
    anywhere(links)
}

/// Links in any bytes, at some places inside and outside.
pub fn anywhere(bytes: &[u8]) -> Result<(), Difference> {
    let end = bytes.len() as u64;
    let last = (0..40).map(|back| end.saturating_sub(back));
    let outside = [end + 1, end + 18, u64::MAX - 18, u64::MAX - 17, u64::MAX];
    for at in (0..40).chain(last).chain(outside) {
        link(bytes, at)?;
    }
    Ok(())
}

/// The link that begins at a place.
pub fn link(links: &[u8], at: u64) -> Result<(), Difference> {
    same(sys::link(links, at), expected(links, at), || {
        format!("link at {at} of {}", generator::hex(links))
    })
}

fn expected(links: &[u8], at: u64) -> sys::LinkEntry {
    let rest = usize::try_from(at).ok().and_then(|at| links.get(at..));
    let Some(link) = rest.and_then(|rest| Links::new(rest).next()) else {
        return sys::LinkEntry {
            missing: 1,
            ..Default::default()
        };
    };
    let (name, name_len) = (at + 18, link.name.len() as u64);
    sys::LinkEntry {
        missing: 0,
        child: link.child,
        parent: link.parent,
        name,
        name_len,
        next: name + name_len,
    }
}
