//! The documents read aloud. Each definition is one sentence of them, and nothing is saved for later.

mod channel;
mod clauses;
mod file;
mod need;
mod panel;
mod part;
mod reply;
mod rows;

pub use channel::{barred, collide, legal, legal_upto, occupied, segments, share, Segment};
pub use clauses::{clauses, false_under, lines, width, Clause};
pub use need::{first_routing, need, routings, Need};
pub use panel::{edit, load, panel, panel_route};
pub use part::p1_job;

use crate::{Connection, Job, Refusal, Replied, Verdict, PROGRAM_BUDGET, PROGRAM_BYTES};
use rows::{decide, Row};

/// The reader: rows 1 to 5.
pub fn read(file: &[u8]) -> Result<Job, Refusal> {
    decide(&file::rows(file))?;
    Ok(file::job(file))
}

/// Where the part that holds the connections starts, and its length.
pub fn part_of_file(file: &[u8]) -> Result<(usize, usize), Refusal> {
    let job = read(file)?;
    let length = 3 * job.connections.len();
    Ok((file.len() - 8 - length, length))
}

/// Row 9: a lent buffer of `room` bytes where `asked` are asked.
fn too_short(room: usize, asked: usize) -> Option<u64> {
    (room < asked).then_some(0)
}

/// Routing a job under a budget: the verdict by the need.
pub fn route_job(job: &Job, budget: u32) -> Verdict {
    let need = need(job);
    if u128::from(budget) < need.pairs {
        return Verdict::Undecided { trials: u64::from(budget) };
    }
    let trials = need.pairs as u64;
    match need.first {
        Some(labels) => Verdict::Routed { labels: labels.iter().map(|&t| t as u8).collect(), trials },
        None => Verdict::Unroutable { trials },
    }
}

/// Routing: rows 1 to 5 and 9.
pub fn route(file: &[u8], budget: u32, room: usize) -> Result<Verdict, Refusal> {
    let mut rows = file::rows(file);
    rows.push(Row::new(9, || too_short(room, file::job(file).connections.len())));
    decide(&rows)?;
    Ok(route_job(&file::job(file), budget))
}

/// Judging: rows 1 to 5 and 11.
pub fn judge(file: &[u8], labels: &[u8]) -> Result<(), Refusal> {
    let mut rows = file::rows(file);
    rows.push(Row::new(11, || not_legal(&file::job(file), labels)));
    decide(&rows)
}

/// Row 11: not M labels, or the first connection whose label is outside, barred, or collides with an earlier one.
fn not_legal(job: &Job, labels: &[u8]) -> Option<u64> {
    if labels.len() != job.connections.len() {
        return Some(0);
    }
    let labels: Vec<usize> = labels.iter().map(|&b| usize::from(b)).collect();
    (1..=labels.len()).find(|&i| !legal_upto(job, &labels, i)).map(|i| i as u64)
}

/// A clause line: rows 1 to 5, 9 and 10.
pub fn line(file: &[u8], number: u64, room: usize) -> Result<Vec<u8>, Refusal> {
    let mut rows = file::rows(file);
    rows.push(Row::new(9, || too_short(room, 62)));
    rows.push(Row::new(10, || (number > clauses(&file::job(file)).len() as u64).then_some(0)));
    decide(&rows)?;
    Ok(lines(&file::job(file))[number as usize].clone().into_bytes())
}

/// A solver's reply: rows 1 to 5, 9, 6, 7 and 8.
pub fn reply(file: &[u8], text: &[u8], room: usize) -> Result<Replied, Refusal> {
    let mut rows = file::rows(file);
    rows.push(Row::new(9, || too_short(room, file::job(file).connections.len())));
    rows.push(Row::new(6, || reply::not_a_reply(text)));
    rows.push(Row::new(7, || reply::not_a_model(&file::job(file), text)));
    rows.push(Row::new(8, || reply::first_false(&file::job(file), text)));
    decide(&rows)?;
    Ok(reply::answer(&file::job(file), text))
}

/// The P1 writer: rows 2, 5 and 9.
pub fn p1(connections: &[u8], limit: u32, room: usize) -> Result<Vec<u8>, Refusal> {
    let mut rows = part::rows(connections, limit);
    rows.push(Row::new(9, || too_short(room, part::p1_job(connections, limit).encode().len())));
    decide(&rows)?;
    Ok(part::p1_job(connections, limit).encode())
}

/// The editor's entry for P1: rows 2, 5 and 9, then as the file with those connections does.
pub fn p1_route(records: &[Connection], limit: u32, budget: u32, room: usize) -> Result<Verdict, Refusal> {
    let bytes: Vec<u8> = records.iter().flat_map(|c| [c.left, c.right, c.mark]).collect();
    let mut rows = part::rows(&bytes, limit);
    rows.push(Row::new(9, || too_short(room, records.len())));
    decide(&rows)?;
    route(&part::p1_job(&bytes, limit).encode(), budget, room)
}

/// What the routing program prints.
pub fn program(input: &[u8]) -> Vec<u8> {
    let answer = if input.len() > PROGRAM_BYTES {
        Err(Refusal { number: 3, place: 0 })
    } else {
        read(input).and_then(|_| route(input, PROGRAM_BUDGET, input.len()))
    };
    printed(&answer, || file::job(input)).into_bytes()
}

fn printed(answer: &Result<Verdict, Refusal>, job: impl Fn() -> Job) -> String {
    match answer {
        Err(refusal) => format!("refused {} {}\n", refusal.number, refusal.place),
        Ok(Verdict::Undecided { trials }) => format!("undecided {trials}\n"),
        Ok(Verdict::Unroutable { trials }) => format!("unroutable {trials}\n"),
        Ok(Verdict::Routed { labels, trials }) => {
            let job = job();
            let mut out = format!("routed {trials}\n");
            for (i, &label) in labels.iter().enumerate() {
                let taken = occupied(&job, usize::from(label), &job.connections[i]);
                let (first, last) = (taken.first().expect("a connection occupies a segment"), taken.last().expect("a connection occupies a segment"));
                out.push_str(&format!("{} {label} {first} {last}\n", i + 1));
            }
            out
        }
    }
}

#[cfg(test)]
mod numbers;
