//! A job as text that a person can read and write, and back. A line has a word and its numbers; `#` starts a remark:
//!
//! ```text
//! columns 6
//! limit 2                    # K: the most segments of a connection
//! track 3 6                  # the right ends of its segments
//! track 2 6 performance
//! connection 1 2             # its left and right column
//! connection 3 5 critical
//! connection 4 6 net 7       # a piece of net 7, one of 1 to 127
//! connection 4 4 net 7 critical
//! ```
//!
//! Tracks and connections are numbered in the order of their lines. `critical` may also stand before `net`.

use crate::status::{Failure, Status};
use crate::streams::{self, Output};
use crate::view::{Connection, Job, Track};
use crate::{input, tell};
use silienvo::P1_FILE;
use std::ffi::OsString;

/// The job as text.
fn written(job: &Job) -> String {
    let mut lines = vec![format!("columns {} # N", job.columns), format!("limit {} # K", job.limit)];
    for (i, track) in job.tracks.iter().enumerate() {
        let ends: String = track.ends.iter().map(|end| format!(" {end}")).collect();
        let performance = if track.performance { " performance" } else { "" };
        lines.push(format!("track{ends}{performance} # track {}", i + 1));
    }
    for (i, connection) in job.connections.iter().enumerate() {
        let net = if connection.net() > 0 { format!(" net {}", connection.net()) } else { String::new() };
        let critical = if connection.critical() { " critical" } else { "" };
        lines.push(format!("connection {} {}{net}{critical} # connection {}", connection.left, connection.right, i + 1));
    }
    lines.join("\n") + "\n"
}

/// What a text holds: the two numbers as often as they stand there, the tracks and the connections.
#[derive(Default)]
struct Lines {
    columns: Vec<u8>,
    limit: Vec<u8>,
    tracks: Vec<Track>,
    connections: Vec<Connection>,
}

impl Lines {
    /// Reads one line's words.
    fn take(&mut self, words: &[&str]) -> Option<()> {
        match words {
            [] => {}
            ["columns", n] => self.columns.push(byte(n)?),
            ["limit", k] => self.limit.push(byte(k)?),
            ["track", ends @ .., "performance"] => self.tracks.push(Track { performance: true, ends: bytes(ends)? }),
            ["track", ends @ ..] => self.tracks.push(Track { performance: false, ends: bytes(ends)? }),
            ["connection", left, right, marked @ ..] => {
                self.connections.push(Connection { left: byte(left)?, right: byte(right)?, mark: mark(marked)? });
            }
            _ => return None,
        }
        Some(())
    }

    /// Reads a text; what is no line of a job is named by its number.
    fn read(text: &[u8]) -> Result<Lines, Failure> {
        let mut lines = Lines::default();
        for (i, line) in String::from_utf8_lossy(text).lines().enumerate() {
            let words: Vec<&str> = line.split('#').next().unwrap_or("").split_whitespace().collect();
            lines.take(&words).ok_or_else(|| Failure::new(format!("line {}, `{}`, is no line of a job", i + 1, input::shown(line.as_ref()))))?;
        }
        Ok(lines)
    }
}

fn byte(word: &str) -> Option<u8> {
    word.bytes().all(|b| b.is_ascii_digit()).then(|| word.parse().ok())?
}

fn bytes(words: &[&str]) -> Option<Vec<u8>> {
    words.iter().map(|word| byte(word)).collect()
}

/// The mark of what stands behind a connection's columns.
fn mark(words: &[&str]) -> Option<u8> {
    let net = |word| byte(word).filter(|net| (1..=127).contains(net));
    match words {
        [] => Some(0),
        ["critical"] => Some(1),
        ["net", n] => Some(net(n)? * 2),
        ["net", n, "critical"] | ["critical", "net", n] => Some(net(n)? * 2 + 1),
        _ => None,
    }
}

/// A size as the byte that the file has for it.
fn size(n: usize, what: &str) -> Result<u8, Failure> {
    n.try_into().map_err(|_| Failure::new(format!("{n} {what} do not fit into a job file")))
}

fn distance(n: usize) -> Result<[u8; 2], Failure> {
    n.try_into().map(u16::to_le_bytes).map_err(|_| Failure::new("a job file is not that long"))
}

/// The one number that a line of this name must give.
fn once(given: &[u8], name: &str) -> Result<u8, Failure> {
    match given {
        [n] => Ok(*n),
        _ => Err(Failure::new(format!("{} lines `{name}` where there must be one", given.len()))),
    }
}

fn records(connections: &[Connection]) -> Vec<u8> {
    connections.iter().flat_map(|c| [c.left, c.right, c.mark]).collect()
}

/// The bytes of what a text holds. Whether they are a job is the library's to say.
fn encoded(lines: &Lines) -> Result<Vec<u8>, Failure> {
    let mut file = Vec::new();
    for track in &lines.tracks {
        file.extend([size(track.ends.len(), "segments of a track")?, u8::from(track.performance)]);
        file.extend(&track.ends);
    }
    let records = records(&lines.connections);
    file.extend(&records);
    let trailer = [distance(file.len())?, distance(records.len())?].concat();
    file.extend(trailer);
    file.extend([once(&lines.columns, "columns")?, size(lines.tracks.len(), "tracks")?]);
    file.extend([size(lines.connections.len(), "connections")?, once(&lines.limit, "limit")?]);
    Ok(file)
}

pub fn show(words: &[OsString], out: &mut Output) -> Result<Status, Failure> {
    match Job::read(&input::file(input::only(words, "a file")?)?) {
        Err(refusal) => tell::refused(refusal, out),
        Ok(job) => {
            out.write(written(&job).as_bytes())?;
            Ok(Status::Good)
        }
    }
}

pub fn job(words: &[OsString], out: &mut Output) -> Result<Status, Failure> {
    if let [word, ..] = words {
        return Err(Failure::new(format!("`{}`: job reads its text from standard input", input::shown(word))));
    }
    let file = encoded(&Lines::read(&streams::standard_input()?)?)?;
    match silienvo::read(&file) {
        Err(refusal) => tell::refused(refusal, out),
        Ok(_) => {
            out.write(&file)?;
            Ok(Status::Good)
        }
    }
}

pub fn p1(words: &[OsString], out: &mut Output) -> Result<Status, Failure> {
    let limit = input::number(input::only(words, "the limit K")?, "K")?;
    let lines = Lines::read(&streams::standard_input()?)?;
    if !lines.tracks.is_empty() || !lines.columns.is_empty() || !lines.limit.is_empty() {
        return Err(Failure::new("P1 has its own columns and tracks: only `connection` lines, and K as the word"));
    }
    let mut buffer = [0; P1_FILE];
    match silienvo::p1_write(&records(&lines.connections), limit, &mut buffer) {
        Err(refusal) => tell::refused(refusal, out),
        Ok(length) => {
            out.write(&buffer[..length as usize])?;
            Ok(Status::Good)
        }
    }
}

#[cfg(test)]
mod tests {
    use super::*;
    use second::make::{edge, full, joined, middle, small, Rng};

    #[test]
    fn show_and_job_are_inverse() {
        let mut rng = Rng::new(5);
        for make in [small, middle, full, edge] {
            for i in 0..500 {
                let job = make(&mut rng);
                let file = if i % 2 == 0 { joined(&mut rng, job) } else { job }.encode();
                let text = written(&Job::read(&file).unwrap());
                assert_eq!(encoded(&Lines::read(text.as_bytes()).unwrap()).unwrap(), file);
            }
        }
    }

    #[test]
    fn a_mark_is_a_net_and_critical() {
        let connections = |text: &str| records(&Lines::read(text.as_bytes()).unwrap().connections);
        for (line, mark) in [
            ("connection 1 2", 0),
            ("connection 1 2 critical", 1),
            ("connection 1 2 net 1", 2),
            ("connection 1 2 net 1 critical", 3),
            ("connection 1 2 net 127", 254),
            ("connection 1 2 net 127 critical", 255),
        ] {
            assert_eq!(connections(line), [1, 2, mark]);
            let job = Job { columns: 6, limit: 2, tracks: vec![], connections: vec![Connection { left: 1, right: 2, mark }] };
            assert!(written(&job).ends_with(&format!("{line} # connection 1\n")));
        }
        assert_eq!(connections("connection 1 2 critical net 127"), [1, 2, 255]);
    }

    #[test]
    fn what_is_no_line_of_a_job_is_named_by_its_number() {
        let columns = ["track 3 256", "connection 1", "connection 1 2 3", "columns +6", "limit", "row 1 2", "connection 1 2 performance"];
        let nets = ["net", "net 0", "net 128", "net -1", "net 1 2", "7", "net critical", "critical net", "net 1 net 1", "net 1 critical critical"];
        for line in columns.map(String::from).into_iter().chain(nets.map(|words| format!("connection 1 2 {words}"))) {
            let failure = Lines::read(format!("columns 6 # six\n\n{line}\n").as_bytes()).err().expect(&line).to_string();
            assert_eq!(failure, format!("line 3, `{line}`, is no line of a job"));
        }
    }

    #[test]
    fn what_does_not_fit_into_a_file_is_a_failure() {
        let tracks = |n: usize, ends: usize| format!("columns 6\nlimit 2\n{}", format!("track{}\n", " 1".repeat(ends)).repeat(n));
        for text in [tracks(256, 1), tracks(1, 256), tracks(255, 255) + &"connection 1 2\n".repeat(256), "columns 6\ncolumns 6\nlimit 2\n".into()] {
            assert!(encoded(&Lines::read(text.as_bytes()).unwrap()).is_err());
        }
    }
}
