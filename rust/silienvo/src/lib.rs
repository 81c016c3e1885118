//! The library's C exports (include/silienvo.h) as safe Rust. It decides nothing: every verdict, number and byte comes out of the library.

mod exports;
mod panel;
mod refusal;

use std::fmt;

pub use exports::SilienvoConnection as Connection;
pub use panel::{Panel, PANEL};
pub use refusal::Refusal;

/// The bytes that a clause line is lent, and each connection's row; the most connections of a job (a label each); the longest file of house part P1.
pub const LINE: usize = 62;
pub const ROW: usize = 16;
pub const MOST_CONNECTIONS: usize = 64;
pub const P1_FILE: usize = 250;

/// What the reader says of a job, and where the part that holds the connections lies in the file.
#[derive(Clone, Copy, Debug, PartialEq, Eq)]
pub struct Job {
    pub columns: u32,
    pub tracks: u32,
    pub connections: u32,
    pub limit: u32,
    pub start: u64,
    pub length: u64,
}

/// A verdict of routing, with its trials. Only `Routed` has written labels.
#[derive(Clone, Copy, Debug, PartialEq, Eq)]
pub enum Verdict {
    Routed(u64),
    Unroutable(u64),
    Undecided(u64),
}

impl fmt::Display for Verdict {
    fn fmt(&self, f: &mut fmt::Formatter) -> fmt::Result {
        match self {
            Verdict::Routed(trials) => write!(f, "routed {trials}"),
            Verdict::Unroutable(trials) => write!(f, "unroutable {trials}"),
            Verdict::Undecided(trials) => write!(f, "undecided {trials}"),
        }
    }
}

/// What a solver's reply comes to. Only `Accepted` has written labels.
#[derive(Clone, Copy, Debug, PartialEq, Eq)]
pub enum Replied {
    Accepted,
    Claimed,
    Unknown,
}

/// Reads a job file.
pub fn read(file: &[u8]) -> Result<Job, Refusal> {
    let exports::SilienvoJob { kind, number, place, columns, tracks, connections, limit, start, length } =
        unsafe { exports::silienvo_read(file.as_ptr(), file.len()) };
    match kind {
        0 => Err(Refusal { number, place }),
        1 => Ok(Job { columns, tracks, connections, limit, start, length }),
        other => unlisted(other),
    }
}

/// Routes a job file under a budget.
pub fn route(file: &[u8], budget: u32, labels: &mut [u8]) -> Result<Verdict, Refusal> {
    verdict(unsafe { exports::silienvo_route(file.as_ptr(), file.len(), budget, labels.as_mut_ptr(), labels.len()) })
}

/// Judges a routing that is brought.
pub fn judge(file: &[u8], labels: &[u8]) -> Result<(), Refusal> {
    let answer = unsafe { exports::silienvo_judge(file.as_ptr(), file.len(), labels.as_ptr(), labels.len()) };
    only(answer).map(drop)
}

/// Writes the lines of a brought routing, connection, track, first and last occupied segment; says their length.
pub fn rows(file: &[u8], labels: &[u8], text: &mut [u8]) -> Result<u64, Refusal> {
    let answer = unsafe { exports::silienvo_rows(file.as_ptr(), file.len(), labels.as_ptr(), labels.len(), text.as_mut_ptr(), text.len()) };
    only(answer)
}

/// Writes one clause line; says its length.
pub fn line(file: &[u8], number: u64, buffer: &mut [u8]) -> Result<u64, Refusal> {
    let answer = unsafe { exports::silienvo_line(file.as_ptr(), file.len(), number, buffer.as_mut_ptr(), buffer.len()) };
    only(answer)
}

/// Reads a solver's reply.
pub fn reply(file: &[u8], text: &[u8], labels: &mut [u8]) -> Result<Replied, Refusal> {
    let answer = unsafe { exports::silienvo_reply(file.as_ptr(), file.len(), text.as_ptr(), text.len(), labels.as_mut_ptr(), labels.len()) };
    kind(&answer).map(|kind| match kind {
        1 => Replied::Accepted,
        2 => Replied::Claimed,
        3 => Replied::Unknown,
        other => unlisted(other),
    })
}

/// Writes the job file of house part P1 with these connections, three bytes each (left, right, mark); says its length.
pub fn p1_write(connections: &[u8], limit: u32, buffer: &mut [u8]) -> Result<u64, Refusal> {
    let answer = unsafe { exports::silienvo_p1_write(connections.as_ptr(), connections.len(), limit, buffer.as_mut_ptr(), buffer.len()) };
    only(answer)
}

/// Routes connections on house part P1.
pub fn p1_route(connections: &[Connection], limit: u32, budget: u32, labels: &mut [u8]) -> Result<Verdict, Refusal> {
    verdict(unsafe { exports::silienvo_p1_route(connections.as_ptr(), connections.len(), limit, budget, labels.as_mut_ptr(), labels.len()) })
}

fn kind(answer: &exports::SilienvoAnswer) -> Result<u32, Refusal> {
    match answer.kind {
        0 => Err(Refusal { number: answer.number, place: answer.value }),
        kind => Ok(kind),
    }
}

/// The value of an answer that has one kind beside a refusal.
fn only(answer: exports::SilienvoAnswer) -> Result<u64, Refusal> {
    kind(&answer).map(|kind| match kind {
        1 => answer.value,
        other => unlisted(other),
    })
}

fn verdict(answer: exports::SilienvoAnswer) -> Result<Verdict, Refusal> {
    kind(&answer).map(|kind| match kind {
        1 => Verdict::Routed(answer.value),
        2 => Verdict::Unroutable(answer.value),
        3 => Verdict::Undecided(answer.value),
        other => unlisted(other),
    })
}

fn unlisted(kind: u32) -> ! {
    panic!("the library answered {kind}, which its header does not list")
}
