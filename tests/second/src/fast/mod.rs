//! The same entries by other means, for jobs on which the definitions would take too long: a track's segments are the bits of a word, the search
//! stops at the budget, clauses are counted and never listed, a reply is read byte by byte, loads are carried along.

mod channel;
mod clauses;
mod file;
mod panel;
mod part;
mod reply;
mod search;

pub use channel::Channel;
pub use clauses::{count, text};
pub use panel::{edit, panel, panel_route, Kept};
pub use search::search;

use crate::{Connection, Job, Refusal, Replied, Verdict, PROGRAM_BUDGET, PROGRAM_BYTES};
use std::io::Write;

fn refuse<A>(number: u32, place: u64) -> Result<A, Refusal> {
    Err(Refusal { number, place })
}

pub fn read(file: &[u8]) -> Result<Job, Refusal> {
    file::read(file)
}

pub fn part_of_file(file: &[u8]) -> Result<(usize, usize), Refusal> {
    let length = 3 * read(file)?.connections.len();
    Ok((file.len() - length - 8, length))
}

pub fn route(file: &[u8], budget: u32, room: usize) -> Result<Verdict, Refusal> {
    let job = read(file)?;
    if job.connections.len() > room {
        return refuse(9, 0);
    }
    Ok(search(&Channel::of(&job), budget))
}

pub fn judge(file: &[u8], labels: &[u8]) -> Result<(), Refusal> {
    let job = read(file)?;
    if labels.len() != job.connections.len() {
        return refuse(11, 0);
    }
    let channel = Channel::of(&job);
    let mut placed = vec![0u64; channel.tracks];
    for (m, &label) in labels.iter().enumerate() {
        let fits = (1..=channel.tracks).contains(&usize::from(label)) && {
            let track = usize::from(label) - 1;
            let free = channel.mask(m, track) != 0 && channel.rivals(m, track) & placed[track] == 0;
            placed[track] |= 1 << m;
            free
        };
        if !fits {
            return refuse(11, m as u64 + 1);
        }
    }
    Ok(())
}

pub fn line(file: &[u8], number: u64, room: usize) -> Result<Vec<u8>, Refusal> {
    let job = read(file)?;
    if room < 62 {
        return refuse(9, 0);
    }
    clauses::text(&Channel::of(&job), number).map_or(refuse(10, 0), Ok)
}

pub fn reply(file: &[u8], text: &[u8], room: usize) -> Result<Replied, Refusal> {
    let job = read(file)?;
    if room < job.connections.len() {
        return refuse(9, 0);
    }
    reply::read(&Channel::of(&job), text)
}

pub fn p1(connections: &[u8], limit: u32, room: usize) -> Result<Vec<u8>, Refusal> {
    let file = part::p1(connections, limit)?;
    if room < file.len() {
        return refuse(9, 0);
    }
    Ok(file)
}

pub fn p1_route(records: &[Connection], limit: u32, budget: u32, room: usize) -> Result<Verdict, Refusal> {
    let mut bytes = Vec::with_capacity(3 * records.len());
    for c in records {
        bytes.extend([c.left, c.right, c.mark]);
    }
    route(&part::p1(&bytes, limit)?, budget, room)
}

pub fn program(input: &[u8]) -> Vec<u8> {
    if input.len() > PROGRAM_BYTES {
        return b"refused 3 0\n".to_vec();
    }
    let mut out = Vec::new();
    let wrote = match route(input, PROGRAM_BUDGET, usize::MAX) {
        Err(Refusal { number, place }) => writeln!(out, "refused {number} {place}"),
        Ok(Verdict::Undecided { trials }) => writeln!(out, "undecided {trials}"),
        Ok(Verdict::Unroutable { trials }) => writeln!(out, "unroutable {trials}"),
        Ok(Verdict::Routed { labels, trials }) => {
            let channel = Channel::of(&read(input).expect("a job that was routed"));
            writeln!(out, "routed {trials}").and_then(|()| {
                labels.iter().enumerate().try_for_each(|(m, &label)| {
                    let mask = channel.mask(m, usize::from(label) - 1);
                    writeln!(out, "{} {label} {} {}", m + 1, mask.trailing_zeros() + 1, 32 - mask.leading_zeros())
                })
            })
        }
    };
    wrote.expect("a write to memory");
    out
}
