//! What was compared of digests and of neighbouring volumes.

use super::columns::columns;

// The state is looked at before the number of bytes, and that before the room for a digest. Nothing
// of a volume is looked at, so no other number is left.
columns! {
    /// The calls that take digests, and the numbers that a made-up state of the right length gives
    /// through [`hdrfs::Digest`], which lends all the room there has to be.
    Digests {
        sha256: [0, 1, 17];
        start: [0, 17];
        feed: [0, 1, 17];
        finish: [0, 1, 17];
        fed: [0, 1];
        finished: [0, 1];
    }
}

// A volume that is refused by itself is refused as its check is, whichever of the two it is.
columns! {
    /// The check of a pair, by whose fault it is: nobody's or that of both, the first's, the second's.
    /// `entry` has the volumes that were taken into the chain one by one.
    Pairs {
        both: [0, 23];
        first: [1, 2, 3, 4, 5, 6, 7, 8, 9, 10, 11, 12, 13, 14];
        second: [1, 2, 3, 4, 5, 6, 7, 8, 9, 10, 11, 12, 13, 14];
        entry: [0, 1, 2, 3, 4, 5, 6, 7, 8, 9, 10, 11, 12, 13, 14];
    }
}

#[cfg(test)]
mod tests {
    use super::{Digests, Pairs};

    #[test]
    fn what_is_missing_is_told() {
        assert!(Digests::full().faults().is_empty());
        let mut digests = Digests::full();
        digests.feed[1] = 0;
        digests.start[1] = 2;
        let told = [
            "start: answer 1 came 2 times",
            "feed: answer 1 came 0 times",
        ];
        assert_eq!(digests.faults(), told);
        assert!(Pairs::full().faults().is_empty());
        let mut pairs = Pairs::full();
        pairs.both[23] = 0;
        pairs.second[23] = 1;
        let told = [
            "both: answer 23 came 0 times",
            "second: answer 23 came 1 times",
        ];
        assert_eq!(pairs.faults(), told);
        pairs.add(&Pairs::full());
        assert_eq!(pairs.faults(), ["second: answer 23 came 1 times"]);
    }
}
