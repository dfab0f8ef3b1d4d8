//! Counts of answers, one column for each call.

use independent::refusal::LARGEST;

/// One count for each refusal number; 0 stands for no refusal.
pub type Numbers = [u64; LARGEST + 1];

/// A call's name, how often it gave each number, and the numbers that it can give.
pub(super) type Column<'a> = (&'static str, &'a Numbers, &'static [usize]);

/// Some calls, each with the refusal numbers that it can give.
macro_rules! columns {
    ($(#[$about:meta])* $name:ident { $($call:ident: $possible:expr;)* }) => {
        $(#[$about])*
        #[derive(Clone, Debug, Default)]
        pub struct $name {
            $(pub $call: $crate::tally::Numbers,)*
        }

        impl $name {
            /// Adds the counts of another.
            pub fn add(&mut self, other: &$name) {
                $($crate::tally::columns::add(&mut self.$call, &other.$call);)*
            }

            /// Answers that can occur and were not compared, or the other way round.
            #[must_use]
            pub fn faults(&self) -> Vec<String> {
                $crate::tally::columns::faults(&self.columns())
            }

            /// A table of all counts.
            #[must_use]
            pub fn table(&self) -> String {
                $crate::tally::columns::table(&self.columns())
            }

            fn columns(&self) -> Vec<$crate::tally::columns::Column<'_>> {
                vec![$((stringify!($call), &self.$call, &$possible)),*]
            }

            /// Counts in which everything that can occur came once.
            #[cfg(test)]
            pub(super) fn full() -> $name {
                let mut full = $name::default();
                $(for number in $possible {
                    full.$call[number] = 1;
                })*
                full
            }
        }
    };
}

pub(super) use columns;

pub(super) fn add<const N: usize>(sum: &mut [u64; N], other: &[u64; N]) {
    for (sum, number) in sum.iter_mut().zip(other) {
        *sum += number;
    }
}

pub(super) fn faults(columns: &[Column<'_>]) -> Vec<String> {
    let mut faults = Vec::new();
    for (name, numbers, possible) in columns {
        for (number, &count) in numbers.iter().enumerate() {
            if (count > 0) != possible.contains(&number) {
                faults.push(format!("{name}: answer {number} came {count} times"));
            }
        }
    }
    faults
}

pub(super) fn table(columns: &[Column<'_>]) -> String {
    let mut text = String::from("answer");
    for (name, _, _) in columns {
        text += &format!("{name:>10}");
    }
    for number in 0..=LARGEST {
        text += &format!("\n{number:6}");
        for (_, numbers, _) in columns {
            text += &format!("{:10}", numbers[number]);
        }
    }
    text
}
