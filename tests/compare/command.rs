//! What commands with N and SEED share: how they are read, and how a run ends.

use std::process::ExitCode;

use crate::tally::Tally;

/// N and SEED, each by default as given; none, and a word on how to call it, where they are not such.
pub fn count_and_seed(name: &str, count: usize, seed: u64) -> Option<(usize, u64)> {
    let words = std::env::args().skip(1).map(|word| word.parse().ok());
    match words.collect::<Option<Vec<u64>>>().as_deref() {
        Some([]) => Some((count, seed)),
        Some(&[count]) => Some((count as usize, seed)),
        Some(&[count, seed]) => Some((count as usize, seed)),
        _ => {
            eprintln!("usage: {name} [N] [SEED]");
            None
        }
    }
}

/// Prints the counts, the first failures and the last line.
pub fn report(all: &[&Tally]) -> ExitCode {
    all.iter().for_each(|tally| tally.print());
    all.iter().for_each(|tally| tally.print_failures());
    let passed: usize = all.iter().map(|tally| tally.passed).sum();
    let failed: usize = all.iter().map(|tally| tally.failed).sum();
    println!("{passed} passed, {failed} failed");
    match failed {
        0 => ExitCode::SUCCESS,
        _ => ExitCode::FAILURE,
    }
}
