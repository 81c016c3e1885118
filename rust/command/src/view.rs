//! A job's values and the lines of a routing, for the eye: read off a file that the library has found good, and off what it wrote.

use silienvo::{Refusal, MOST_CONNECTIONS, ROW};

/// A track: whether it is a performance track, and the right ends of its segments.
pub struct Track {
    pub performance: bool,
    pub ends: Vec<u8>,
}

/// A connection's columns and its mark: its net's number times 2, plus 1 if it is critical.
pub struct Connection {
    pub left: u8,
    pub right: u8,
    pub mark: u8,
}

pub struct Job {
    pub columns: u8,
    pub limit: u8,
    pub tracks: Vec<Track>,
    pub connections: Vec<Connection>,
}

/// A connection of a routing: the track's label, and the first and last segment that it occupies there, from 1.
pub struct Row {
    pub label: usize,
    pub first: usize,
    pub last: usize,
}

impl Connection {
    /// The net that it is a piece of, 1 to 127; 0 for a connection on its own.
    pub fn net(&self) -> u8 {
        self.mark / 2
    }

    pub fn critical(&self) -> bool {
        self.mark % 2 == 1
    }
}

impl Track {
    /// The first and the last column of a segment, counted from 1.
    pub fn columns_of(&self, segment: usize) -> (u8, u8) {
        let left = if segment == 1 { 1 } else { self.ends[segment - 2] + 1 };
        (left, self.ends[segment - 1])
    }
}

impl Job {
    /// The job of a file, if the library reads one there.
    pub fn read(file: &[u8]) -> Result<Job, Refusal> {
        let found = silienvo::read(file)?;
        let mut tracks = Vec::new();
        let mut at = 0;
        for _ in 0..found.tracks {
            let ends = at + 2 + usize::from(file[at]);
            tracks.push(Track { performance: file[at + 1] == 1, ends: file[at + 2..ends].to_vec() });
            at = ends;
        }
        let section = &file[found.start as usize..][..found.length as usize];
        let connections = section.chunks_exact(3).map(|c| Connection { left: c[0], right: c[1], mark: c[2] }).collect();
        Ok(Job { columns: found.columns as u8, limit: found.limit as u8, tracks, connections })
    }
}

/// The lines of a routing: connection, track, first and last occupied segment.
pub fn lines(file: &[u8], labels: &[u8]) -> Result<Vec<u8>, Refusal> {
    let mut text = vec![0; MOST_CONNECTIONS * ROW];
    let length = silienvo::rows(file, labels, &mut text)?;
    text.truncate(length as usize);
    Ok(text)
}

/// The same as values.
pub fn rows(lines: &[u8]) -> Vec<Row> {
    let number = |field: &[u8]| field.iter().fold(0, |n, digit| 10 * n + usize::from(digit - b'0'));
    let row = |line: &[u8]| {
        let fields: Vec<usize> = line.split(|&b| b == b' ').map(number).collect();
        Row { label: fields[1], first: fields[2], last: fields[3] }
    };
    lines.split(|&b| b == b'\n').filter(|line| !line.is_empty()).map(row).collect()
}
