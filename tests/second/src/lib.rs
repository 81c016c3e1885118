//! A second router, written from the product's documents alone, to hold the proved library against.
//!
//! It answers every entry twice. `slow` is the documents read aloud: segments are quantified over, routings are enumerated, pairs are counted,
//! every clause is written down and evaluated, a reply is split into lines and words. `fast` answers the same questions by other means, for jobs
//! on which the definitions would take too long. The two share the values below and nothing else. `make` makes jobs,
//! files and replies to ask about, from a seed.

pub mod boundary;
pub mod calls;
pub mod fast;
pub mod kind;
pub mod make;
pub mod panel;
pub mod protocol;
pub mod slow;

/// A track: whether it is a performance track, and the right ends of its segments.
#[derive(Clone, Debug, PartialEq, Eq)]
pub struct Track {
    pub performance: bool,
    pub ends: Vec<u8>,
}

/// A connection: its columns and its mark byte, which is its net's number times 2, plus 1 if it is critical.
#[derive(Clone, Copy, Debug, PartialEq, Eq)]
pub struct Connection {
    pub left: u8,
    pub right: u8,
    pub mark: u8,
}

/// A job. Nothing says here that it keeps its limits: the readers say that.
#[derive(Clone, Debug, PartialEq, Eq)]
pub struct Job {
    pub columns: u8,
    pub limit: u8,
    pub tracks: Vec<Track>,
    pub connections: Vec<Connection>,
}

/// A refusal: its number in the document's table, and the place.
#[derive(Clone, Copy, Debug, PartialEq, Eq)]
pub struct Refusal {
    pub number: u32,
    pub place: u64,
}

/// What routing under a budget answers.
#[derive(Clone, Debug, PartialEq, Eq)]
pub enum Verdict {
    Routed { labels: Vec<u8>, trials: u64 },
    Unroutable { trials: u64 },
    Undecided { trials: u64 },
}

/// What a well-formed reply comes to.
#[derive(Clone, Debug, PartialEq, Eq)]
pub enum Replied {
    Accepted { labels: Vec<u8> },
    Claimed,
    Unknown,
}

/// The routing program's budget and the most bytes that it reads.
pub const PROGRAM_BUDGET: u32 = 1_000_000;
pub const PROGRAM_BYTES: usize = 4096;

impl Connection {
    /// The net that it is a piece of, 1 to 127; 0 for a connection on its own.
    pub fn net(&self) -> u8 {
        self.mark / 2
    }

    pub fn critical(&self) -> bool {
        self.mark % 2 == 1
    }
}

impl Job {
    /// The job file. Fields that do not fit their bytes are cut, so that files over the limits can be made too.
    pub fn encode(&self) -> Vec<u8> {
        let mut file = Vec::new();
        for track in &self.tracks {
            file.push(track.ends.len() as u8);
            file.push(u8::from(track.performance));
            file.extend_from_slice(&track.ends);
        }
        let connections = file.len();
        for connection in &self.connections {
            file.extend_from_slice(&[connection.left, connection.right, connection.mark]);
        }
        let trailer = file.len();
        file.extend_from_slice(&(trailer as u16).to_le_bytes());
        file.extend_from_slice(&((trailer - connections) as u16).to_le_bytes());
        file.extend_from_slice(&[self.columns, self.tracks.len() as u8, self.connections.len() as u8, self.limit]);
        file
    }
}

/// Connection bytes, three a record, as connections.
pub fn records(bytes: &[u8]) -> Vec<Connection> {
    bytes.chunks_exact(3).map(|b| Connection { left: b[0], right: b[1], mark: b[2] }).collect()
}

#[cfg(test)]
mod tests {
    use super::*;
    use crate::protocol::{answer_text, Way};

    #[test]
    fn slow_and_fast_agree() {
        let mut rng = make::Rng::new(1);
        for _ in 0..400 {
            for asked in make::batch(&mut rng).into_iter().chain(make::edits(&mut rng)).filter(|asked| asked.way == Way::Slow) {
                let (slow, fast) = (answer_text(Way::Slow, asked.request.clone()), answer_text(Way::Fast, asked.request.clone()));
                assert_eq!(String::from_utf8_lossy(&slow), String::from_utf8_lossy(&fast), "{:?}", asked.request);
            }
        }
    }

    /// The models of a job's clauses, each as the labels that it spells.
    fn models(job: &Job) -> Vec<Vec<usize>> {
        let (clauses, w, count) = (slow::clauses(job), slow::width(job) as usize, job.connections.len());
        let model = |bits: usize| {
            let value = |variable: u64| bits >> (w * count - variable as usize) & 1 == 1;
            let label = |m: usize| 1 + (bits >> (w * (count - 1 - m)) & ((1 << w) - 1));
            let labels = (0..count).map(label).collect();
            (!clauses.iter().any(|clause| slow::false_under(clause, value))).then_some(labels)
        };
        (0..1 << (w * count)).filter_map(model).collect()
    }

    #[test]
    fn the_models_of_the_clauses_are_the_routings() {
        let mut rng = make::Rng::new(3);
        for i in 0..300 {
            let job = if i % 3 == 0 { make::small(&mut rng) } else { make::crowded(&mut rng) };
            assert_eq!(models(&job), slow::routings(&job), "{job:?}");
        }
    }

    #[test]
    fn a_job_is_read_back_as_it_was_written() {
        let mut rng = make::Rng::new(2);
        for i in 0..200 {
            let job = if rng.once_in(2) { make::full(&mut rng) } else { make::edge(&mut rng) };
            let job = if i % 2 == 0 { make::joined(&mut rng, job) } else { job };
            assert_eq!(slow::read(&job.encode()), Ok(job.clone()));
            assert_eq!(fast::read(&job.encode()), Ok(job));
        }
    }
}
