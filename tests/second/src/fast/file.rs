//! The job file, in one pass from the front.

use super::refuse;
use crate::{Connection, Job, Refusal, Track};

pub fn read(file: &[u8]) -> Result<Job, Refusal> {
    let Some((body, trailer)) = file.split_last_chunk::<8>() else {
        return refuse(1, 0);
    };
    let [a, b, c, d, columns, tracks, connections, limit] = *trailer;
    if columns == 0 || tracks == 0 || tracks > 36 || connections > 64 || limit == 0 || limit > 32 {
        return refuse(2, 0);
    }
    let (first, second) = (u16::from_le_bytes([a, b]) as usize, u16::from_le_bytes([c, d]) as usize);
    if first != body.len() || second != 3 * connections as usize || first < second {
        return refuse(3, 0);
    }
    let (mut section, connection_bytes) = body.split_at(first - second);
    let mut job = Job { columns, limit, tracks: Vec::new(), connections: Vec::new() };
    for k in 1..=u64::from(tracks) {
        match track(&mut section, columns) {
            Some(track) => job.tracks.push(track),
            None => return refuse(4, k),
        }
    }
    if !section.is_empty() {
        return refuse(4, u64::from(tracks) + 1);
    }
    for (i, bytes) in connection_bytes.chunks(3).enumerate() {
        match connection(bytes, columns) {
            Some(connection) => job.connections.push(connection),
            None => return refuse(5, i as u64 + 1),
        }
    }
    Ok(job)
}

/// Takes a good record off the front of the track section.
fn track(section: &mut &[u8], columns: u8) -> Option<Track> {
    let (&[g, flag], rest) = section.split_first_chunk::<2>()?;
    if g == 0 || g > 32 || flag > 1 || rest.len() < g as usize {
        return None;
    }
    let (ends, rest) = rest.split_at(g as usize);
    let mut end = 0;
    for &next in ends {
        if next <= end {
            return None;
        }
        end = next;
    }
    *section = rest;
    (end == columns).then(|| Track { performance: flag == 1, ends: ends.to_vec() })
}

/// A good connection of three bytes.
pub fn connection(bytes: &[u8], columns: u8) -> Option<Connection> {
    match *bytes {
        [left, right, mark] if left != 0 && right >= left && columns >= right => Some(Connection { left, right, mark }),
        _ => None,
    }
}
