//! What is said where the two disagree.

use std::fmt::{self, Debug};

use independent::Refusal;

/// Something that the two answer differently.
#[derive(Debug)]
pub struct Difference {
    question: String,
    proved: String,
    independent: String,
}

/// The refusal that both gave; its number is 0 for none.
pub type Answer = Result<Refusal, Difference>;

impl Difference {
    /// Says what the question is about.
    #[must_use]
    pub(crate) fn of(mut self, what: &str) -> Difference {
        self.question = format!("{what}: {}", self.question);
        self
    }
}

impl fmt::Display for Difference {
    fn fmt(&self, f: &mut fmt::Formatter<'_>) -> fmt::Result {
        writeln!(f, "{}", self.question)?;
        writeln!(f, "proved:      {}", self.proved)?;
        write!(f, "independent: {}", self.independent)
    }
}

/// Fails unless the two are equal. `question` is only called then.
pub(crate) fn same<T: PartialEq + Debug>(
    proved: T,
    independent: T,
    question: impl FnOnce() -> String,
) -> Result<(), Difference> {
    if proved == independent {
        return Ok(());
    }
    Err(Difference {
        question: question(),
        proved: format!("{proved:?}"),
        independent: format!("{independent:?}"),
    })
}

/// The same for lists, of which only the first items that differ are shown.
pub(crate) fn same_list<T: PartialEq + Debug>(
    proved: &[T],
    independent: &[T],
    question: impl Fn() -> String,
) -> Result<(), Difference> {
    let pairs = proved.iter().zip(independent);
    for (place, (one, two)) in pairs.enumerate() {
        same(one, two, || format!("{}, item {place}", question()))?;
    }
    let (one, two) = (proved.len(), independent.len());
    same(one, two, || format!("{}, number of items", question()))
}

#[cfg(test)]
mod tests {
    use super::{same, same_list};

    #[test]
    fn differences_are_told() {
        assert!(same(1, 1, || unreachable!()).is_ok());
        let told = same(1, 2, || "sum".into()).unwrap_err().to_string();
        assert_eq!(told, "sum\nproved:      1\nindependent: 2");
    }

    #[test]
    fn lists_differ_in_items_and_length() {
        let told = |one: &[u64], two: &[u64]| {
            let compared = same_list(one, two, || "list".into());
            compared.map_err(|difference| difference.to_string())
        };
        assert_eq!(told(&[4, 5], &[4, 5]), Ok(()));
        let item = "list, item 1\nproved:      5\nindependent: 6";
        assert_eq!(told(&[4, 5], &[4, 6, 7]), Err(item.into()));
        let length = "list, number of items\nproved:      1\nindependent: 2";
        assert_eq!(told(&[4], &[4, 6]), Err(length.into()));
    }
}
