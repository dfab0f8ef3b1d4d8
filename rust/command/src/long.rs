//! The long form of a listing: what each block is about.

use hdrfs::{BadText, Block, Content, FileType, Inode, Link, Refusal};

use crate::json::{list, Object};
use crate::text::{count, quoted};

pub const HEADING: &str =
    " block    offset  kind             length                  time  about\n";

/// A block in a line. What it is about stands last, since names may have blanks in them. Below a
/// table its links stand in the same column.
pub fn line(block: &Block) -> String {
    let time = block.time.map_or("-".to_string(), |time| time.to_string());
    let (number, offset, len) = (block.number, block.offset, block.len());
    let (kind, about) = (kind(&block.content), about(&block.content));
    let mut lines =
        format!("{number:>6}  {offset:>8}  {kind:<13}  {len:>8}  {time:>20}  {about}\n");
    if let Content::LinkTable(table) = &block.content {
        for link in table {
            lines += &format!("{:65}{}\n", "", about_link("link", &link));
        }
    }
    lines
}

fn kind(content: &Content) -> &'static str {
    match content {
        Content::Inode(_) => "inode",
        Content::Link(_) => "link",
        Content::Unlink(_) => "unlink",
        Content::Xattr { .. } => "xattr",
        Content::RemovedXattr { .. } => "removed xattr",
        Content::Data { .. } => "data",
        Content::Rename { .. } => "rename",
        Content::LinkTable(_) => "link table",
    }
}

fn about(content: &Content) -> String {
    match content {
        Content::Inode(inode) => about_inode(inode),
        Content::Link(link) => about_link("link", link),
        Content::Unlink(link) => about_link("unlink", link),
        Content::Xattr { inode, name, value } => {
            let len = count(value.len() as u64, "byte");
            format!("inode {inode}, attribute {}, {len}", quoted(name))
        }
        Content::RemovedXattr { inode, name } => {
            format!("inode {inode}, attribute {} taken away", quoted(name))
        }
        Content::Data { payload } => count(payload.len() as u64, "byte"),
        Content::Rename { old, new } => format!("{} to {}", quoted(old), quoted(new)),
        Content::LinkTable(table) => count(table.len() as u64, "link"),
    }
}

fn about_link(word: &str, link: &Link) -> String {
    let (child, parent, name) = (link.child, link.parent, quoted(link.name));
    format!("{word} {child} in {parent} {name}")
}

fn about_inode(inode: &Inode) -> String {
    let (number, kind) = (inode.number, inode.file_type());
    let more = match kind {
        FileType::Regular => format!(", {}", count(inode.size, "byte")),
        FileType::SymbolicLink => format!(" to {}", quoted(inode.target().unwrap_or_default())),
        _ => String::new(),
    };
    format!("inode {number}, {kind}{more}")
}

/// What is said of a refusal behind its number and offset: which block it is about, and of a text that
/// is not UTF-8 which one that is and where.
pub fn fault(refusal: &Refusal, bad_text: Option<BadText>) -> String {
    let (text, start) = (refusal.text, refusal.start);
    match (refusal.block, bad_text) {
        (None, _) => String::new(),
        (Some(block), None) => format!(" (block {block})"),
        (Some(block), Some(bad)) => format!(" (block {block}, text {text}, byte {start}): {bad}"),
    }
}

/// A block for machines.
pub fn object(block: &Block) -> Object {
    let object = Object::new()
        .number("block", block.number)
        .number("offset", block.offset)
        .number("id", block.id)
        .text("kind", kind(&block.content))
        .number("length", block.len());
    let object = match block.time {
        Some(time) => object.number("time", time),
        None => object,
    };
    members(object, &block.content)
}

fn members(object: Object, content: &Content) -> Object {
    match content {
        Content::Inode(inode) => inode_members(object, inode),
        Content::Link(link) | Content::Unlink(link) => link_members(object, link),
        Content::Xattr { inode, name, value } => object
            .number("inode", *inode)
            .text("name", name)
            .number("size", value.len() as u64),
        Content::RemovedXattr { inode, name } => object.number("inode", *inode).text("name", name),
        Content::Data { payload } => object.number("size", payload.len() as u64),
        Content::Rename { old, new } => object.text("old", old).text("new", new),
        Content::LinkTable(table) => {
            let links = table.iter();
            let links = links.map(|link| link_members(Object::new(), &link).text_of());
            object.raw("links", &list(links))
        }
    }
}

fn link_members(object: Object, link: &Link) -> Object {
    object
        .number("child", link.child)
        .number("parent", link.parent)
        .text("name", link.name)
}

fn inode_members(object: Object, inode: &Inode) -> Object {
    let object = object
        .number("inode", inode.number)
        .text("type", &inode.file_type().to_string())
        .number("size", inode.size)
        .number("mode", inode.mode.into())
        .number("uid", inode.uid.into())
        .number("gid", inode.gid.into())
        .number("atime", inode.atime)
        .number("mtime", inode.mtime)
        .number("ctime", inode.ctime)
        .number("btime", inode.btime);
    match inode.target() {
        Some(target) => object.text("target", target),
        None => object,
    }
}
