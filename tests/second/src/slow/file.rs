//! The job file, and rows 1 to 5 of the table.

use super::rows::Row;
use crate::{records, Job, Track};

/// The trailer's fields: the two distances, then N, T, M, K.
struct Trailer {
    to_tracks: usize,
    to_connections: usize,
    columns: u8,
    tracks: u8,
    connections: u8,
    limit: u8,
}

fn trailer(file: &[u8]) -> Trailer {
    let b = &file[file.len() - 8..];
    let pair = |low: u8, high: u8| usize::from(low) + 256 * usize::from(high);
    Trailer { to_tracks: pair(b[0], b[1]), to_connections: pair(b[2], b[3]), columns: b[4], tracks: b[5], connections: b[6], limit: b[7] }
}

/// Rows 1 to 5, over a file.
pub fn rows(file: &[u8]) -> Vec<Row<'_>> {
    vec![
        Row::new(1, || (file.len() < 8).then_some(0)),
        Row::new(2, || (!within(&trailer(file))).then_some(0)),
        Row::new(3, || (!distances(file)).then_some(0)),
        Row::new(4, || bad_track(file)),
        Row::new(5, || bad_connection(file)),
    ]
}

fn within(t: &Trailer) -> bool {
    (1..=255).contains(&t.columns) && (1..=36).contains(&t.tracks) && t.connections <= 64 && (1..=32).contains(&t.limit)
}

fn distances(file: &[u8]) -> bool {
    let t = trailer(file);
    t.to_tracks == file.len() - 8 && t.to_connections == 3 * usize::from(t.connections) && t.to_connections <= t.to_tracks
}

/// Where the connection section starts.
fn connections_at(file: &[u8]) -> usize {
    file.len() - 8 - trailer(file).to_connections
}

/// Where the record of a track starts, tracks from 1, all tracks before it being good.
fn track_at(file: &[u8], track: usize) -> usize {
    if track == 1 {
        return 0;
    }
    let before = track_at(file, track - 1);
    before + 2 + usize::from(file[before])
}

fn ends(file: &[u8], track: usize) -> &[u8] {
    let at = track_at(file, track);
    &file[at + 2..at + 2 + usize::from(file[at])]
}

/// The record keeps its rule and does not run into the connections.
fn good_track(file: &[u8], track: usize) -> bool {
    let (at, stop) = (track_at(file, track), connections_at(file));
    if at + 2 > stop {
        return false;
    }
    let (g, flag) = (file[at], file[at + 1]);
    if !(1..=32).contains(&g) || flag > 1 || at + 2 + usize::from(g) > stop {
        return false;
    }
    let ends = ends(file, track);
    ends[0] >= 1 && (1..ends.len()).all(|i| ends[i - 1] < ends[i]) && ends[ends.len() - 1] == trailer(file).columns
}

fn bad_track(file: &[u8]) -> Option<u64> {
    let tracks = usize::from(trailer(file).tracks);
    if let Some(track) = (1..=tracks).find(|&track| !good_track(file, track)) {
        return Some(track as u64);
    }
    let left_over = track_at(file, tracks + 1) != connections_at(file);
    left_over.then_some(tracks as u64 + 1)
}

fn bad_connection(file: &[u8]) -> Option<u64> {
    let columns = trailer(file).columns;
    let connections = records(&file[connections_at(file)..file.len() - 8]);
    let bad = connections.iter().position(|c| !(1 <= c.left && c.left <= c.right && c.right <= columns))?;
    Some(bad as u64 + 1)
}

/// The job of a file of which no row holds.
pub fn job(file: &[u8]) -> Job {
    let t = trailer(file);
    let track = |k| Track { performance: file[track_at(file, k) + 1] == 1, ends: ends(file, k).to_vec() };
    Job {
        columns: t.columns,
        limit: t.limit,
        tracks: (1..=usize::from(t.tracks)).map(track).collect(),
        connections: records(&file[connections_at(file)..file.len() - 8]),
    }
}
