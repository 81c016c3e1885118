//! Channel, connection, legal. Tracks are labels, from 1; connections are numbered from 1.

use crate::{Connection, Job};

/// A segment of a track.
#[derive(Clone, Copy, Debug, PartialEq, Eq)]
pub struct Segment {
    pub left: u32,
    pub right: u32,
}

/// The segments of a track, left to right: each starts one column after the one before it ends.
pub fn segments(job: &Job, track: usize) -> Vec<Segment> {
    let mut left = 1;
    let mut all = Vec::new();
    for &end in &job.tracks[track - 1].ends {
        all.push(Segment { left, right: u32::from(end) });
        left = u32::from(end) + 1;
    }
    all
}

/// A segment is occupied by a connection on its track if right(segment) ≥ left(connection) and left(segment) ≤ right(connection).
fn occupies(segment: &Segment, c: &Connection) -> bool {
    segment.right >= u32::from(c.left) && segment.left <= u32::from(c.right)
}

/// The numbers, from 1, of the segments that a connection occupies on a track.
pub fn occupied(job: &Job, track: usize, c: &Connection) -> Vec<usize> {
    let segments = segments(job, track);
    (1..=segments.len()).filter(|&s| occupies(&segments[s - 1], c)).collect()
}

/// The connection would occupy more than K segments there.
fn too_many_segments(job: &Job, track: usize, c: &Connection) -> bool {
    occupied(job, track, c).len() > usize::from(job.limit)
}

/// The connection is critical and the track is no performance track.
fn no_performance_track(job: &Job, track: usize, c: &Connection) -> bool {
    c.critical() && !job.tracks[track - 1].performance
}

pub fn barred(job: &Job, track: usize, c: &Connection) -> bool {
    too_many_segments(job, track, c) || no_performance_track(job, track, c)
}

/// Two connections share a segment of a track if it is occupied by both.
pub fn share(job: &Job, track: usize, a: &Connection, b: &Connection) -> bool {
    segments(job, track).iter().any(|s| occupies(s, a) && occupies(s, b))
}

/// Two connections with the same net above 0 are pieces of one net.
fn pieces_of_one_net(a: &Connection, b: &Connection) -> bool {
    a.net() > 0 && a.net() == b.net()
}

/// Two different connections collide on a track if they share a segment there; pieces of one net never do.
pub fn collide(job: &Job, track: usize, a: &Connection, b: &Connection) -> bool {
    share(job, track, a, b) && !pieces_of_one_net(a, b)
}

/// A sequence of tracks for connections 1 to i is legal if no given track is barred and no two connections on one track collide.
pub fn legal(job: &Job, sequence: &[usize]) -> bool {
    let c = &job.connections;
    let inside = sequence.iter().all(|&t| 1 <= t && t <= job.tracks.len());
    inside
        && (0..sequence.len()).all(|i| !barred(job, sequence[i], &c[i]))
        && (0..sequence.len()).all(|i| (0..sequence.len()).all(|j| i == j || sequence[i] != sequence[j] || !collide(job, sequence[i], &c[i], &c[j])))
}

/// Of connection i alone, from 1: its label is not outside, not barred, and does not collide with an earlier one.
pub fn legal_upto(job: &Job, labels: &[usize], i: usize) -> bool {
    let (track, c) = (labels[i - 1], &job.connections);
    1 <= track
        && track <= job.tracks.len()
        && !barred(job, track, &c[i - 1])
        && (1..i).all(|j| labels[j - 1] != track || !collide(job, track, &c[i - 1], &c[j - 1]))
}
