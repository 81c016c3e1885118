//! How a call ends: the exit statuses, and why an answer was not given.

use std::fmt;

/// The exit status, from best to worst.
#[derive(Clone, Copy, Debug, PartialEq, Eq, PartialOrd, Ord)]
pub enum Status {
    Good = 0,
    No = 1,
    Open = 2,
    Refused = 3,
    Failed = 4,
}

/// The statuses in words, for every help.
pub const TABLE: &str = include_str!("../../../docs/statuses.txt");

/// Wrong usage, input that cannot be read, output that is not taken: what standard error is told.
#[derive(Debug)]
pub struct Failure(String);

impl Failure {
    pub fn new(said: impl Into<String>) -> Failure {
        Failure(said.into())
    }
}

impl fmt::Display for Failure {
    fn fmt(&self, f: &mut fmt::Formatter) -> fmt::Result {
        f.write_str(&self.0)
    }
}
