//! Counts of one kind of check, with its first failures.

/// How many failures of one kind are printed.
const SHOWN: usize = 3;

pub struct Tally {
    name: String,
    pub passed: usize,
    pub failed: usize,
    first_failures: Vec<String>,
}

impl Tally {
    pub fn new(name: &str) -> Tally {
        Tally {
            name: name.to_string(),
            passed: 0,
            failed: 0,
            first_failures: Vec::new(),
        }
    }

    /// Counts one check; the text that tells a failure is made only where it is printed.
    pub fn count(&mut self, passed: bool, failure: impl FnOnce() -> String) {
        if passed {
            self.passed += 1;
            return;
        }
        self.failed += 1;
        if self.first_failures.len() < SHOWN {
            self.first_failures.push(failure());
        }
    }

    pub fn print(&self) {
        println!(
            "  {:<40} {:>8} passed {:>8} failed",
            self.name, self.passed, self.failed
        );
    }

    pub fn print_failures(&self) {
        for failure in &self.first_failures {
            println!("  {}: {failure}", self.name);
        }
    }
}
