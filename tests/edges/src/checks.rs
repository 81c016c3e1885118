//! Counts what holds, and shows what does not.

#[derive(Default)]
pub struct Checks {
    passed: u64,
    failed: u64,
}

impl Checks {
    /// One check; `got` says what was there instead.
    pub fn check(&mut self, holds: bool, what: &str, got: impl FnOnce() -> String) {
        if holds {
            self.passed += 1;
        } else {
            self.failed += 1;
            println!("FAILED: {what}\n{}", got());
        }
    }

    /// The heading of a group, with how many checks passed so far.
    pub fn group(&self, name: &str) {
        println!("{name} (after {} checks)", self.passed + self.failed);
    }

    /// Prints the counts; gives the exit status.
    pub fn end(&self) -> i32 {
        println!("{} passed, {} failed", self.passed, self.failed);
        i32::from(self.failed > 0)
    }
}
