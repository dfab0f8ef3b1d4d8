//! Tables to list as trees.

use independent::*;

use super::*;

/// Child and parent of each link.
pub type Links = [(u64, u64)];

/// Where the table of [`volume_of`] stands.
pub const AT: Bookmark = Bookmark::at(80);

/// A table of these links, under names that all differ.
pub fn table_of(links: &Links) -> Vec<u8> {
    let bytes = links.iter().enumerate().map(|(place, &(child, parent))| {
        let name = format!("{place}");
        table_link(child, parent, name.as_bytes())
    });
    let bytes: Vec<Vec<u8>> = bytes.collect();
    table(links.len() as u64, &bytes.concat())
}

/// Volume 1 with that table.
pub fn volume_of(links: &Links) -> Vec<u8> {
    volume(1, &[table_of(links)])
}

/// The lines that are stored in so much room. Fails if anything else was
/// stored, or if the forms of the checksum disagree.
pub fn listed(
    volume: &[u8],
    mark: Bookmark,
    root: u64,
    room: usize,
) -> Result<Vec<[u64; 2]>, Refusal> {
    let before: Vec<u64> = (0..room as u64).map(|k| k ^ 0x5555_5555).collect();
    let mut out = before.clone();
    let told = tree(volume, mark, root, &mut out);
    let filled = told.map_or(0, |lines| 2 * lines as usize);
    assert_eq!(out[filled..], before[filled..]);
    let mut again = before;
    assert_eq!(tree_with(volume, mark, root, &mut again, crc::table), told);
    assert_eq!(again, out);
    told.map(|_| out[..filled].as_chunks::<2>().0.to_vec())
}
