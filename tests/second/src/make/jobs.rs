//! Jobs of every size, valid but for `over`.

use super::nets::joined_bytes;
use super::Rng;
use crate::{Connection, Job, Track};

/// The sizes of a channel, and how its tracks and connections are cut.
#[derive(Clone, Copy)]
pub struct Shape {
    pub columns: usize,
    pub tracks: usize,
    pub connections: usize,
    pub limit: usize,
    /// The most segments of a track.
    pub segments: usize,
    /// The most columns of a connection.
    pub span: usize,
    /// One track, and one connection, in this many is a performance track, or critical; 0 for none.
    pub critical: usize,
}

fn once_in(rng: &mut Rng, n: usize) -> bool {
    n > 0 && rng.once_in(n)
}

/// `segments` right ends, strictly rising, the last the channel's last column.
fn ends(rng: &mut Rng, columns: usize, segments: usize) -> Vec<u8> {
    let mut inner: Vec<u8> = (1..columns).map(|c| c as u8).collect();
    rng.shuffle(&mut inner);
    inner.truncate(segments - 1);
    inner.push(columns as u8);
    inner.sort_unstable();
    inner
}

pub fn connection(rng: &mut Rng, shape: &Shape) -> Connection {
    let span = rng.from_to(1, shape.span.min(shape.columns));
    let left = rng.from_to(1, shape.columns - span + 1);
    Connection { left: left as u8, right: (left + span - 1) as u8, mark: u8::from(once_in(rng, shape.critical)) }
}

/// A channel of a shape.
pub fn channel(rng: &mut Rng, shape: &Shape) -> Job {
    let most = shape.segments.min(shape.columns);
    let tracks = (0..shape.tracks)
        .map(|_| {
            let segments = rng.from_to(1, most);
            Track { performance: once_in(rng, shape.critical.min(3)), ends: ends(rng, shape.columns, segments) }
        })
        .collect();
    let connections = (0..shape.connections).map(|_| connection(rng, shape)).collect();
    Job { columns: shape.columns as u8, limit: shape.limit as u8, tracks, connections }
}

/// Few enough sequences to enumerate.
pub fn small(rng: &mut Rng) -> Job {
    let tracks = rng.pick(&[1, 1, 2, 2, 2, 3, 3, 4, 5, 8]);
    let most = [0, 5, 5, 4, 3, 2, 2, 2, 2][tracks];
    let columns = rng.from_to(1, 12);
    let shape = Shape {
        columns,
        tracks,
        connections: rng.from_to(0, most),
        limit: rng.pick(&[1, 1, 2, 2, 3, 32]),
        segments: rng.from_to(1, 6),
        span: rng.from_to(1, 6),
        critical: rng.pick(&[0, 0, 3, 6]),
    };
    channel(rng, &shape)
}

pub fn middle(rng: &mut Rng) -> Job {
    let shape = Shape {
        columns: rng.from_to(6, 60),
        tracks: rng.from_to(1, 12),
        connections: rng.from_to(1, 20),
        limit: rng.from_to(1, 5),
        segments: rng.from_to(1, 12),
        span: rng.from_to(1, 20),
        critical: rng.pick(&[0, 0, 5, 10]),
    };
    channel(rng, &shape)
}

pub fn full(rng: &mut Rng) -> Job {
    let shape = Shape {
        columns: rng.pick(&[64, 100, 150, 200, 255]),
        tracks: rng.pick(&[25, 32, 33, 35, 36, 36, 36]),
        connections: rng.pick(&[40, 50, 63, 64, 64, 64]),
        limit: rng.pick(&[2, 3, 4, 31, 32, 32]),
        segments: rng.pick(&[8, 16, 32, 32]),
        span: rng.pick(&[4, 10, 30, 80, 255]),
        critical: rng.pick(&[0, 0, 10, 30]),
    };
    channel(rng, &shape)
}

/// Connections that meet in the last column, one to a track, up to the last segment of the last track; then some elsewhere.
pub fn stacked(rng: &mut Rng) -> Job {
    let (columns, tracks) = (rng.pick(&[64, 128, 255]), rng.pick(&[35, 36, 36]));
    let connections = rng.from_to(tracks - 2, 64);
    let mut job = channel(rng, &Shape { columns, tracks, connections, limit: 32, segments: 32, span: columns / 4, critical: 0 });
    for track in &mut job.tracks {
        if !rng.once_in(4) {
            track.ends = ends(rng, columns, 32);
        }
    }
    for (i, c) in job.connections.iter_mut().enumerate() {
        if i < tracks {
            *c = Connection { left: (columns - rng.below(5)) as u8, right: columns as u8, mark: 0 };
        } else {
            c.right = c.right.min(columns as u8 / 2);
            c.left = c.left.min(c.right);
        }
    }
    job
}

/// A job with one size, or several, at its limit.
pub fn edge(rng: &mut Rng) -> Job {
    let mut shape = Shape { columns: rng.from_to(40, 255), tracks: 2, connections: 3, limit: 2, segments: 4, span: 20, critical: 4 };
    for size in 0..5 {
        if rng.once_in(2) {
            match size {
                0 => shape.tracks = 36,
                1 => shape.connections = 64,
                2 => shape.limit = 32,
                3 => shape.segments = 32,
                _ => shape.columns = rng.pick(&[1, 255]),
            }
        }
    }
    let mut job = channel(rng, &shape);
    if shape.segments == 32 && shape.columns >= 32 {
        let at = rng.below(job.tracks.len());
        job.tracks[at].ends = ends(rng, shape.columns, 32);
    }
    job
}

/// A job with one size just outside its limits, otherwise as it should be.
pub fn over(rng: &mut Rng) -> Job {
    let mut shape = Shape {
        columns: rng.from_to(40, 255),
        tracks: rng.from_to(1, 4),
        connections: rng.from_to(0, 5),
        limit: 2,
        segments: 4,
        span: 20,
        critical: 4,
    };
    let size = rng.below(6);
    match size {
        0 => shape.tracks = 37,
        1 => shape.connections = 65,
        2 => shape.limit = 33,
        3 => shape.limit = 0,
        4 => shape.tracks = 0,
        _ => {}
    }
    let mut job = channel(rng, &shape);
    if size == 5 {
        let at = rng.below(job.tracks.len());
        job.tracks[at].ends = ends(rng, shape.columns, 33);
    }
    job
}

/// Another job with the same channel.
pub fn like(rng: &mut Rng, job: &Job, connections: usize, span: usize) -> Job {
    let shape = Shape { columns: usize::from(job.columns), tracks: 0, connections: 0, limit: 0, segments: 0, span, critical: 8 };
    Job { connections: (0..connections).map(|_| connection(rng, &shape)).collect(), ..job.clone() }
}

/// Connection bytes for P1, valid; in two of five as pieces of nets.
pub fn p1_connections(rng: &mut Rng) -> Vec<u8> {
    let shape = Shape { columns: 30, tracks: 0, connections: 0, limit: 0, segments: 0, span: rng.pick(&[2, 5, 10, 30]), critical: rng.pick(&[0, 4]) };
    let count = rng.pick(&[0, 1, 2, 2, 3, 3, 4, 6, 10, 20, 40, 63, 64]);
    let bytes: Vec<u8> = (0..count).map(|_| connection(rng, &shape)).flat_map(|c| [c.left, c.right, c.mark]).collect();
    if rng.below(5) < 2 {
        joined_bytes(rng, &bytes)
    } else {
        bytes
    }
}
