//! Channels for the solvers: the sizes of the source paper's Table 1, the largest channel, and small ones; each kind with nets too.

use second::make::{channel, crowded, full, joined, middle, packed, small, Rng, Shape};
use second::{Connection, Job};

pub struct Channel {
    pub name: String,
    pub job: Job,
    pub file: Vec<u8>,
}

impl Channel {
    /// Bits to a code.
    pub fn width(&self) -> usize {
        second::fast::Channel::of(&self.job).width()
    }
}

/// N, M, T of the rows of Table 1.
const TABLE_1: [(usize, usize, usize); 13] = [
    (30, 15, 10),
    (50, 15, 15),
    (50, 18, 15),
    (50, 20, 15),
    (75, 25, 20),
    (100, 15, 10),
    (100, 18, 10),
    (100, 30, 25),
    (100, 30, 30),
    (100, 30, 36),
    (100, 40, 36),
    (100, 45, 36),
    (100, 50, 36),
];

fn of(name: String, job: Job) -> Channel {
    Channel { name, file: job.encode(), job }
}

/// The same with two performance tracks and, in front, three critical connections over the middle column: no routing, and soon seen.
fn blocked(mut job: Job) -> Job {
    let last = job.tracks.len() - 1;
    job.tracks[0].performance = true;
    job.tracks[last].performance = true;
    let middle = job.columns / 2;
    for (c, left) in job.connections.iter_mut().zip(middle - 2..=middle) {
        *c = Connection { left, right: middle + 1, mark: 1 };
    }
    job
}

/// A third of the tracks, and the connections as pieces of nets.
fn nets(rng: &mut Rng, columns: usize, connections: usize, tracks: usize) -> Job {
    let shape = Shape { columns, tracks: tracks.div_ceil(3), connections, limit: 4, segments: 8, span: columns / 3, critical: 8 };
    let job = channel(rng, &shape);
    joined(rng, job)
}

/// All channels of a seed.
pub fn channels(seed: u64) -> Vec<Channel> {
    let mut rng = Rng::new(seed);
    let mut all = Vec::new();
    for (row, &(columns, connections, tracks)) in TABLE_1.iter().enumerate() {
        for (kind, limit, segments, part) in [("loose", 4, 8, 3), ("tight", 2, 3, 2)] {
            let shape = Shape { columns, tracks, connections, limit, segments, span: columns / part, critical: 8 };
            all.push(of(format!("Table 1, row {}, {kind}", row + 1), channel(&mut rng, &shape)));
        }
        let shape = Shape { columns, tracks, connections, limit: 4, segments: 8, span: columns / 3, critical: 0 };
        all.push(of(format!("Table 1, row {}, blocked", row + 1), blocked(channel(&mut rng, &shape))));
        all.push(of(format!("Table 1, row {}, nets", row + 1), nets(&mut rng, columns, connections, tracks)));
    }
    for (name, limit, segments, span, critical) in [
        ("largest, short", 32, 32, 20, 0),
        ("largest, long", 32, 6, 110, 0),
        ("largest, few switches", 2, 12, 60, 0),
        ("largest, critical", 3, 16, 40, 4),
    ] {
        let shape = Shape { columns: 255, tracks: 36, connections: 64, limit, segments, span, critical };
        all.push(of(name.to_string(), channel(&mut rng, &shape)));
        let job = channel(&mut rng, &shape);
        all.push(of(format!("{name}, nets"), joined(&mut rng, job)));
    }
    for (n, tracks) in [0, 1, 1, 2].into_iter().zip([3, 1, 2, 1]) {
        let shape = Shape { columns: 6, tracks, connections: n, limit: 2, segments: 3, span: 6, critical: 0 };
        all.push(of(format!("{n} on {tracks}"), channel(&mut rng, &shape)));
    }
    all.extend((1..=40).map(|n| of(format!("small {n}"), small(&mut rng))));
    all.extend((1..=40).map(|n| of(format!("crowded {n}"), crowded(&mut rng))));
    all.extend((1..=30).map(|n| of(format!("middle {n}"), middle(&mut rng))));
    all.extend((1..=30).map(|n| of(format!("packed {n}"), packed(&mut rng))));
    all.extend((1..=2).map(|n| of(format!("full {n}"), full(&mut rng))));
    all
}
