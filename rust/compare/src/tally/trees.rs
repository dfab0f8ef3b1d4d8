//! What was compared of trees.

use super::columns::columns;

// A table is read without a header, has no fields of an inode and no time, so 3, 4, 6, 11, 12 and 14
// stay out of its refusals. Of one that was read only 17 and 24 are left.
columns! {
    /// The answers of listings into lists of numbers; those of the calls that give lines; and those of
    /// the one that hands out the table behind the header.
    Trees {
        tree: [0, 1, 2, 5, 7, 8, 9, 10, 13, 17, 24];
        lines: [0, 17, 24];
        table: [0, 1, 2, 3, 4, 5, 6, 7, 8, 9, 10, 13];
    }
}

#[cfg(test)]
mod tests {
    use super::Trees;

    #[test]
    fn what_is_missing_is_told() {
        assert!(Trees::full().faults().is_empty());
        let mut trees = Trees::full();
        trees.tree[24] = 0;
        trees.lines[2] = 1;
        let told = [
            "tree: answer 24 came 0 times",
            "lines: answer 2 came 1 times",
        ];
        assert_eq!(trees.faults(), told);
        trees.add(&Trees::full());
        assert_eq!(trees.faults(), ["lines: answer 2 came 1 times"]);
        assert_eq!(Trees::default().faults().len(), 11 + 3 + 12);
    }
}
