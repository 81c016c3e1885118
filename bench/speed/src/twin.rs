//! Reading and routing as the library has them, in safe Rust: the file is checked and never copied; a flat array of marks by value at every
//! level, and two functions that call each other. The segments that a connection occupies on a track come from a table that is made once a call, as
//! the library has it (`twin`), or are walked for at every trial, as one would write it first (`plain`).

#![forbid(unsafe_code)]

/// One mark for each track and segment: 0, or the owner byte of the connection that took it.
type Marks = [u8; TRACKS * SEGMENTS];
const TRACKS: usize = 36;
const SEGMENTS: usize = 32;
const CONNECTIONS: usize = 64;
/// The last number of a net.
const NETS: u8 = 127;

/// A job file that was found good, and where its connections start.
struct Job<'a> {
    file: &'a [u8],
    connections_at: usize,
    connections: usize,
    tracks: usize,
    limit: usize,
    /// Where the record of each track starts.
    starts: [usize; TRACKS],
}

impl Job<'_> {
    fn mark(&self, i: usize) -> u8 {
        self.file[self.connections_at + 3 * i + 2]
    }

    /// The owner byte of connection i: its net if it is a piece of one, else a byte of its own behind the last net.
    fn owner(&self, i: usize) -> u8 {
        match self.mark(i) / 2 {
            0 => NETS + 1 + i as u8,
            net => net,
        }
    }
}

/// The first and the last segment, from 0, that connection i occupies on a track; nothing where the track is barred for it.
trait Occupancy {
    fn run(&self, job: &Job, i: usize, track: usize) -> Option<(usize, usize)>;
}

struct Walked;

impl Occupancy for Walked {
    fn run(&self, job: &Job, i: usize, track: usize) -> Option<(usize, usize)> {
        let at = job.connections_at + 3 * i;
        let (left, right, critical) = (job.file[at], job.file[at + 1], job.mark(i) % 2 == 1);
        let record = job.starts[track];
        let ends = &job.file[record + 2..record + 2 + usize::from(job.file[record])];
        let (first, last) = occupied(ends, left, right);
        let barred = last - first + 1 > job.limit || (critical && job.file[record + 1] == 0);
        (!barred).then_some((first, last))
    }
}

/// The first and the last segment of each connection on each track; the last below the first where barred.
struct Tabled([u8; 2 * CONNECTIONS * TRACKS]);

impl Tabled {
    fn of(job: &Job) -> Tabled {
        let mut table = [0; 2 * CONNECTIONS * TRACKS];
        for i in 0..job.connections {
            for track in 0..job.tracks {
                let (first, last) = Walked.run(job, i, track).unwrap_or((1, 0));
                let at = 2 * (i * TRACKS + track);
                table[at] = first as u8;
                table[at + 1] = last as u8;
            }
        }
        Tabled(table)
    }
}

impl Occupancy for Tabled {
    fn run(&self, _: &Job, i: usize, track: usize) -> Option<(usize, usize)> {
        let at = 2 * (i * TRACKS + track);
        let (first, last) = (self.0[at], self.0[at + 1]);
        (first <= last).then_some((usize::from(first), usize::from(last)))
    }
}

#[derive(Clone, Copy, PartialEq, Eq, Debug)]
pub enum Verdict {
    Routed(u64),
    Unroutable(u64),
    Undecided(u64),
}

#[derive(Clone, Copy, PartialEq, Eq)]
enum Found {
    Routing,
    None,
    BudgetSpent,
}

/// Routes a job file under a budget, by a table; nothing where the file is refused or the labels are too few.
pub fn twin(file: &[u8], budget: u32, labels: &mut [u8]) -> Option<Verdict> {
    let job = read(file)?;
    route(&job, &Tabled::of(&job), budget, labels)
}

/// The same by walking.
pub fn plain(file: &[u8], budget: u32, labels: &mut [u8]) -> Option<Verdict> {
    route(&read(file)?, &Walked, budget, labels)
}

fn route(job: &Job, occupancy: &impl Occupancy, budget: u32, labels: &mut [u8]) -> Option<Verdict> {
    if labels.len() < job.connections {
        return None;
    }
    let (found, left) = place_connection(job, occupancy, 0, [0; TRACKS * SEGMENTS], budget, labels);
    Some(match found {
        Found::Routing => Verdict::Routed(u64::from(budget - left)),
        Found::None => Verdict::Unroutable(u64::from(budget - left)),
        Found::BudgetSpent => Verdict::Undecided(u64::from(budget)),
    })
}

/// The job of a good file.
fn read(file: &[u8]) -> Option<Job<'_>> {
    let trailer = file.len().checked_sub(8)?;
    let [a, b, c, d, columns, tracks, connections, limit] = *file.last_chunk()?;
    let (first, second) = (usize::from(u16::from_le_bytes([a, b])), usize::from(u16::from_le_bytes([c, d])));
    let within = columns > 0 && (1..=36).contains(&tracks) && connections <= 64 && (1..=32).contains(&limit);
    if !within || first != trailer || second != 3 * usize::from(connections) || second > first {
        return None;
    }
    let connections_at = trailer - second;
    let mut record = 0;
    let mut starts = [0; TRACKS];
    for start in &mut starts[..usize::from(tracks)] {
        *start = record;
        record += good_track(&file[record..connections_at], columns)?;
    }
    let good = file[connections_at..trailer].chunks_exact(3).all(|c| 1 <= c[0] && c[0] <= c[1] && c[1] <= columns);
    (good && record == connections_at).then(|| Job {
        file,
        connections_at,
        connections: usize::from(connections),
        tracks: usize::from(tracks),
        limit: usize::from(limit),
        starts,
    })
}

/// The length of the track record in front, if it is good.
fn good_track(section: &[u8], columns: u8) -> Option<usize> {
    let (g, flag) = (*section.first()?, *section.get(1)?);
    let ends = section.get(2..2 + usize::from(g))?;
    let mut end = 0;
    for &next in ends {
        if next <= end {
            return None;
        }
        end = next;
    }
    ((1..=32).contains(&g) && flag <= 1 && end == columns).then_some(2 + usize::from(g))
}

/// Places connection i, from 0, and those after it; says what is left of the budget.
fn place_connection(job: &Job, occupancy: &impl Occupancy, i: usize, marks: Marks, budget: u32, labels: &mut [u8]) -> (Found, u32) {
    if i == job.connections {
        return (Found::Routing, budget);
    }
    try_tracks_from(job, occupancy, i, marks, budget, labels)
}

/// Tries the tracks of connection i in order; a track that fits leads on to placing the next.
fn try_tracks_from(job: &Job, occupancy: &impl Occupancy, i: usize, marks: Marks, mut budget: u32, labels: &mut [u8]) -> (Found, u32) {
    let owner = job.owner(i);
    for track in 0..job.tracks {
        if budget == 0 {
            return (Found::BudgetSpent, 0);
        }
        budget -= 1;
        let Some((first, last)) = occupancy.run(job, i, track) else { continue };
        if free(&marks, track, first, last, owner) {
            let (found, rest) = place_connection(job, occupancy, i + 1, taken(marks, track, first, last, owner), budget, labels);
            budget = rest;
            if found == Found::Routing {
                labels[i] = track as u8 + 1;
            }
            if found != Found::None {
                return (found, budget);
            }
        }
    }
    (Found::None, budget)
}

/// The first and the last segment that a connection occupies, from 0.
fn occupied(ends: &[u8], left: u8, right: u8) -> (usize, usize) {
    let mut first = 0;
    while ends[first] < left {
        first += 1;
    }
    let mut last = first;
    while ends[last] < right {
        last += 1;
    }
    (first, last)
}

/// Whether nobody took the run, or only the owner.
fn free(marks: &Marks, track: usize, first: usize, last: usize, owner: u8) -> bool {
    marks[track * SEGMENTS + first..=track * SEGMENTS + last].iter().all(|&mark| mark == 0 || mark == owner)
}

fn taken(mut marks: Marks, track: usize, first: usize, last: usize, owner: u8) -> Marks {
    marks[track * SEGMENTS + first..=track * SEGMENTS + last].fill(owner);
    marks
}

#[cfg(test)]
mod tests {
    use super::*;
    use second::make::{crowded, edge, joined, middle, packed, Rng};
    use second::{fast, Verdict as Expected};

    #[test]
    fn both_route_as_the_second_router() {
        let mut rng = Rng::new(9);
        for i in 0..2_000 {
            let job = match i % 5 {
                0 => crowded(&mut rng),
                1 => packed(&mut rng),
                2 => middle(&mut rng),
                _ => {
                    let job = edge(&mut rng);
                    joined(&mut rng, job)
                }
            };
            let (file, mut expected) = (job.encode(), [0; CONNECTIONS]);
            let verdict = match fast::route(&file, 3_000, CONNECTIONS).unwrap() {
                Expected::Routed { labels, trials } => {
                    expected[..labels.len()].copy_from_slice(&labels);
                    Verdict::Routed(trials)
                }
                Expected::Unroutable { trials } => Verdict::Unroutable(trials),
                Expected::Undecided { trials } => Verdict::Undecided(trials),
            };
            for route in [twin, plain] {
                let mut labels = [0; CONNECTIONS];
                assert_eq!((route(&file, 3_000, &mut labels), labels), (Some(verdict), expected), "{job:?}");
            }
        }
    }
}
