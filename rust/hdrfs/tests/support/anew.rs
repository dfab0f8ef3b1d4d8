//! The sample volumes of the repository, and their blocks written anew.

use std::fs;
use std::path::PathBuf;

use hdrfs::{Block, Content, Refusal, Writer};

/// A sample volume.
pub fn sample(name: &str) -> Vec<u8> {
    let folder = PathBuf::from(env!("CARGO_MANIFEST_DIR")).join("../../crates/samples/data");
    fs::read(folder.join(name)).expect("the sample volume is there")
}

/// Appends a block that was read.
pub fn append(writer: &mut Writer<'_>, block: &Block<'_>) -> Result<(), Refusal> {
    let time = block.time.unwrap_or(0);
    match block.content {
        Content::Inode(inode) => writer.append_inode(time, &inode),
        Content::Link(link) => writer.append_link(time, link),
        Content::Unlink(link) => writer.append_unlink(time, link),
        Content::Xattr { inode, name, value } => writer.append_xattr(time, inode, name, value),
        Content::RemovedXattr { inode, name } => writer.append_removed_xattr(time, inode, name),
        Content::Data { payload } => writer.append_data(time, payload),
        Content::Rename { old, new } => writer.append_rename(time, old, new),
        Content::LinkTable(table) => writer.append_table(table.len() as u64, table.bytes()),
    }
}
