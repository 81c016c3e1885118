//! The fixed set of jobs.

use second::make::{channel, Rng, Shape};

pub struct Timed {
    pub name: &'static str,
    pub file: Vec<u8>,
    pub budget: u32,
    /// What the search is known to say, in words and trials.
    pub known: (&'static str, u64),
}

const EASY: Shape = Shape { columns: 60, tracks: 10, connections: 20, limit: 4, segments: 8, span: 10, critical: 0 };
const MIDDLE: Shape = Shape { columns: 40, tracks: 8, connections: 16, limit: 3, segments: 6, span: 14, critical: 6 };
const HARD: Shape = Shape { columns: 100, tracks: 18, connections: 36, limit: 4, segments: 8, span: 30, critical: 8 };
const FULL: Shape = Shape { columns: 255, tracks: 36, connections: 64, limit: 32, segments: 32, span: 90, critical: 0 };
const LONG: Shape = Shape { columns: 255, tracks: 36, connections: 64, limit: 32, segments: 6, span: 110, critical: 0 };
const NETS: Shape = Shape { columns: 100, tracks: 10, connections: 48, limit: 4, segments: 8, span: 30, critical: 8 };

fn file(shape: &Shape, seed: u64) -> Vec<u8> {
    channel(&mut Rng::new(seed), shape).encode()
}

/// The same with four connections of five as pieces of four nets, in turn.
fn file_with_nets(shape: &Shape, seed: u64) -> Vec<u8> {
    let mut job = channel(&mut Rng::new(seed), shape);
    for (i, connection) in job.connections.iter_mut().enumerate() {
        connection.mark += 2 * (i % 5) as u8;
    }
    job.encode()
}

pub fn jobs() -> Vec<Timed> {
    let job_a = [2, 0, 3, 6, 2, 0, 2, 6, 1, 2, 0, 3, 5, 0, 4, 6, 0, 0x11, 0, 9, 0, 6, 2, 3, 2].to_vec();
    vec![
        Timed { name: "job-a", file: job_a, budget: u32::MAX, known: ("routed", 4) },
        Timed { name: "easy", file: file(&EASY, 1), budget: u32::MAX, known: ("routed", 5_619) },
        Timed { name: "hard-routable", file: file(&HARD, 7), budget: u32::MAX, known: ("routed", 6_199_541) },
        Timed { name: "hard-unroutable", file: file(&MIDDLE, 36), budget: u32::MAX, known: ("unroutable", 17_875_688) },
        Timed { name: "nets-routable", file: file_with_nets(&NETS, 49), budget: u32::MAX, known: ("routed", 2_562_550) },
        Timed { name: "full-size-routable", file: full_routable(), budget: u32::MAX, known: ("routed", 803) },
        Timed { name: "full-size-undecided", file: most_clauses(), budget: 10_000_000, known: ("undecided", 10_000_000) },
    ]
}

/// A largest channel that the search does not decide, with more clauses than most.
pub fn most_clauses() -> Vec<u8> {
    file(&LONG, 1)
}

/// A largest channel that has a routing.
pub fn full_routable() -> Vec<u8> {
    file(&FULL, 4)
}
