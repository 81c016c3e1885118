//! Connections as pieces of nets, and channels so crowded that it matters.

use super::jobs::{channel, Shape};
use super::Rng;
use crate::{Connection, Job};

/// Marks at the ends of what a byte holds: nets 0, 1 and 127, plain and critical.
pub const MARKS: [u8; 6] = [0, 1, 2, 3, 254, 255];

/// The number of a net, often one at an end or half way.
fn net(rng: &mut Rng) -> u8 {
    match rng.below(3) {
        0 => rng.pick(&[1, 2, 63, 64, 126, 127]),
        _ => rng.from_to(1, 127) as u8,
    }
}

/// Gives connections other marks: mostly one to three nets over most of them, each connection as critical as it was; else marks at the ends, or any bytes.
/// Where `critical` does not let them, few of the latter are critical.
fn mark(rng: &mut Rng, connections: &mut [Connection], critical: bool) {
    let nets: Vec<u8> = (0..rng.from_to(1, 3)).map(|_| net(rng)).collect();
    let kind = rng.below(6);
    let plain = if critical && rng.once_in(2) { 0 } else { rng.pick(&[1, 1, 1, 0]) };
    for c in connections {
        c.mark = match kind {
            0 => rng.pick(&MARKS) & !plain,
            1 => rng.byte() & !plain,
            _ if rng.once_in(5) => c.mark,
            _ => rng.pick(&nets) * 2 + c.mark % 2,
        };
    }
}

/// The same job with its connections as pieces of nets.
pub fn joined(rng: &mut Rng, mut job: Job) -> Job {
    let critical = job.tracks.iter().any(|track| track.performance);
    mark(rng, &mut job.connections, critical);
    job
}

/// The same for the connections of house part P1, as bytes.
pub fn joined_bytes(rng: &mut Rng, bytes: &[u8]) -> Vec<u8> {
    let mut connections = crate::records(bytes);
    mark(rng, &mut connections, true);
    connections.iter().flat_map(|c| [c.left, c.right, c.mark]).collect()
}

/// Few tracks, few segments, and as many connections as can be enumerated: without nets there is seldom a routing.
pub fn crowded(rng: &mut Rng) -> Job {
    let (tracks, connections) = rng.pick(&[(1, 4), (1, 5), (2, 4), (2, 5), (3, 4), (4, 3)]);
    let columns = rng.from_to(3, 12);
    let (limit, segments, critical) = (rng.pick(&[1, 2, 3, 32]), rng.from_to(1, 4), rng.pick(&[0, 0, 4]));
    let job = channel(rng, &Shape { columns, tracks, connections, limit, segments, span: columns, critical });
    joined(rng, job)
}

/// The same with connections by the dozen.
pub fn packed(rng: &mut Rng) -> Job {
    let shape = Shape {
        columns: rng.from_to(12, 60),
        tracks: rng.from_to(2, 6),
        connections: rng.from_to(6, 24),
        limit: rng.from_to(1, 5),
        segments: rng.from_to(1, 8),
        span: rng.from_to(4, 20),
        critical: rng.pick(&[0, 0, 8]),
    };
    let job = channel(rng, &shape);
    joined(rng, job)
}
