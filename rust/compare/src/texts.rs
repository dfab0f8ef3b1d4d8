//! Texts at fault: what they are called, and how often they were compared.

use std::fmt;

use independent::block::{INODE, LINK, REMOVED_XATTR, RENAME, TABLE, UNLINK, XATTR};
use independent::refusal::NOT_TEXT;
use independent::Refusal;

/// What the text is called that the block at an offset is refused for; nothing if it is refused for
/// something else, or has no such text.
#[must_use]
pub fn which(volume: &[u8], offset: u64, refusal: Refusal) -> Option<String> {
    if refusal.number != NOT_TEXT {
        return None;
    }
    let id = *volume.get(usize::try_from(offset).ok()?)?;
    Some(match (id, refusal.text) {
        (INODE, 0) => "target".into(),
        (LINK | UNLINK | XATTR | REMOVED_XATTR, 0) => "name".into(),
        (RENAME, 0) => "old path".into(),
        (RENAME, 1) => "new path".into(),
        (TABLE, link) => format!("name of link {link}"),
        _ => return None,
    })
}

/// Fewer of each show little, where there are as many seeds as usual.
pub const FEW: u64 = 100;

/// Refusals that say more than 0 of a text.
#[derive(Clone, Copy, Debug, Default, PartialEq, Eq)]
pub struct Texts {
    /// Another text than the first is at fault.
    pub later: u64,
    /// Its beginning is well-formed.
    pub inside: u64,
    /// Both at once.
    pub both: u64,
}

impl Texts {
    /// Counts what a refusal says; of none it is nothing.
    pub fn note(&mut self, refusal: Refusal) {
        let (later, inside) = (refusal.text > 0, refusal.start > 0);
        self.later += u64::from(later);
        self.inside += u64::from(inside);
        self.both += u64::from(later && inside);
    }

    /// Adds the counts of another.
    pub fn add(&mut self, other: &Texts) {
        self.later += other.later;
        self.inside += other.inside;
        self.both += other.both;
    }

    /// Whether one of the counts is too low.
    #[must_use]
    pub fn are_few(&self, least: u64) -> bool {
        self.later < least || self.inside < least || self.both < least
    }
}

impl fmt::Display for Texts {
    fn fmt(&self, f: &mut fmt::Formatter<'_>) -> fmt::Result {
        let Texts {
            later,
            inside,
            both,
        } = self;
        write!(f, "{later} later texts, {inside} inside one, {both} both")
    }
}

#[cfg(test)]
mod tests {
    use super::{Refusal, Texts};

    #[test]
    fn only_more_than_0_counts() {
        let mut texts = Texts::default();
        for (text, start) in [(0, 0), (1, 0), (0, 1), (0, 2), (4_095, 65_534)] {
            texts.note(Refusal::not_text(text, start));
        }
        texts.note(Refusal::of(14));
        let counted = Texts {
            later: 2,
            inside: 3,
            both: 1,
        };
        assert_eq!(texts, counted);
        assert!(!texts.are_few(1) && texts.are_few(2));
        texts.add(&counted);
        assert!(!texts.are_few(2));
    }
}
