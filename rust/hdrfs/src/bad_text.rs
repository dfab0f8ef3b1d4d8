//! What a text that is not UTF-8 is in its block.

use std::fmt;

/// What a text that is not UTF-8 is in its block; see [`Refusal::bad_text`](crate::Refusal::bad_text).
///
/// ```
/// use hdrfs::BadText;
///
/// assert_eq!(BadText::NewPath.to_string(), "new path");
/// assert_eq!(BadText::NameOfLink(17).to_string(), "name of link 17");
/// ```
#[non_exhaustive]
#[derive(Clone, Copy, Debug, PartialEq, Eq, Hash)]
pub enum BadText {
    /// The target of a symbolic link.
    Target,
    /// The name of a link, an unlink, an xattr or a removed xattr.
    Name,
    /// The path before a rename.
    OldPath,
    /// The path after a rename.
    NewPath,
    /// The name of a link of a link table: which link, counted from 0.
    NameOfLink(u64),
}

impl BadText {
    /// The text with a number in a block with an ID; none where no block of that kind has it.
    pub(crate) fn of(id: u8, text: u64) -> Option<BadText> {
        match (id, text) {
            (1, 0) => Some(BadText::Target),
            (2..=5, 0) => Some(BadText::Name),
            (7, 0) => Some(BadText::OldPath),
            (7, 1) => Some(BadText::NewPath),
            (8, link) => Some(BadText::NameOfLink(link)),
            _ => None,
        }
    }
}

impl fmt::Display for BadText {
    fn fmt(&self, f: &mut fmt::Formatter<'_>) -> fmt::Result {
        match self {
            BadText::Target => f.write_str("target"),
            BadText::Name => f.write_str("name"),
            BadText::OldPath => f.write_str("old path"),
            BadText::NewPath => f.write_str("new path"),
            BadText::NameOfLink(link) => write!(f, "name of link {link}"),
        }
    }
}

#[cfg(test)]
mod tests {
    use super::*;

    #[test]
    fn each_kind_of_block_has_its_texts() {
        let texts = |id| (0..3).map(move |text| BadText::of(id, text));
        let one = |text| [Some(text), None, None];
        let links = [0, 1, 2].map(|link| Some(BadText::NameOfLink(link)));
        let paths = [Some(BadText::OldPath), Some(BadText::NewPath), None];
        for (id, expected) in [
            (0, [None; 3]),
            (1, one(BadText::Target)),
            (2, one(BadText::Name)),
            (3, one(BadText::Name)),
            (4, one(BadText::Name)),
            (5, one(BadText::Name)),
            (6, [None; 3]),
            (7, paths),
            (8, links),
            (9, [None; 3]),
        ] {
            assert!(texts(id).eq(expected), "{id}");
        }
    }
}
