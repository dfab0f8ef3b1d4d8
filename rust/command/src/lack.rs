//! What of a file is not there, in words and for machines.

use hdrfs::{Missing, ShortExtent};

use crate::json::{list, Object};
use crate::text::listed;

/// How many volumes and how many extents are named in words. There may be 1,024.
const NAMED: usize = 8;

/// The volumes that are not given, and apart from them the extents that reach too far.
pub fn words(missing: &Missing) -> String {
    let mut said = Vec::new();
    let mut volumes: Vec<String> = missing.volumes.iter().map(u64::to_string).collect();
    let more = shorten(&mut volumes);
    volumes.extend(more.map(|more| format!("{more} more")));
    match &volumes[..] {
        [] => (),
        [one] => said.push(format!("it needs volume {one}, which is not given")),
        _ => {
            let volumes = listed(&volumes);
            said.push(format!("it needs volumes {volumes}, which are not given"));
        }
    }
    let mut extents: Vec<String> = missing.short.iter().map(short).collect();
    let more = shorten(&mut extents);
    extents.extend(more.map(|more| format!("and so do {more} more")));
    said.extend(extents);
    said.join("; ")
}

/// Takes away what is too much to be named, and answers how many there were.
fn shorten(named: &mut Vec<String>) -> Option<usize> {
    let more = named.len().checked_sub(NAMED).filter(|more| *more > 0)?;
    named.truncate(NAMED);
    Some(more)
}

fn short(short: &ShortExtent) -> String {
    let (index, extent, len) = (short.index, short.extent, short.volume_len);
    let (start, volume) = (extent.start, extent.volume);
    match len {
        // No volume is that short. The library tells so that it cannot count it.
        0 => format!("its extent {index} is in volume {volume}, a number too high for stored bytes"),
        _ => format!("its extent {index}, at {start} of volume {volume}, reaches beyond the {len} bytes there"),
    }
}

/// The same for machines.
pub fn members(missing: &Missing, object: Object) -> Object {
    let volumes = missing.volumes.iter().map(u64::to_string);
    let short = missing.short.iter().map(|short| {
        Object::new()
            .number("extent", short.index as u64)
            .number("volume", short.extent.volume)
            .number("start", short.extent.start.0)
            .number("length", short.volume_len)
            .text_of()
    });
    object
        .number("inode", missing.inode)
        .raw("missing", &list(volumes))
        .raw("short", &list(short))
}
