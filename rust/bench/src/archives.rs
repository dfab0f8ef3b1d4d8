//! Archives: opening a set of volumes, and taking files out of it.

mod copies;
mod scattered;

pub fn run(rounds: usize) {
    scattered::run(rounds.min(3));
    copies::run(rounds);
}
