//! The commands that ask one question of one job, and how verdicts, rows and refusals are told.

use crate::status::{Failure, Status};
use crate::streams::{self, Output};
use crate::view::{self, Job};
use crate::{draw, input};
use silienvo::{Panel, Refusal, Replied, Verdict, LINE, MOST_CONNECTIONS};
use std::ffi::OsString;
use std::path::Path;

pub fn status_of(verdict: Verdict) -> Status {
    match verdict {
        Verdict::Routed(_) => Status::Good,
        Verdict::Unroutable(_) => Status::No,
        Verdict::Undecided(_) => Status::Open,
    }
}

/// A refusal: number and place on standard output, its meaning on standard error.
pub fn refused(refusal: Refusal, out: &mut Output) -> Result<Status, Failure> {
    streams::say(&refusal.to_string());
    out.write(format!("refused {} {}\n", refusal.number, refusal.place).as_bytes())?;
    Ok(Status::Refused)
}

/// The verdict on a file under a budget, and if it is Routed the lines of the routing.
pub fn routed(file: &[u8], budget: u32) -> Result<(Verdict, Option<Vec<u8>>), Refusal> {
    let mut labels = [0; MOST_CONNECTIONS];
    let verdict = silienvo::route(file, budget, &mut labels)?;
    let lines = match verdict {
        Verdict::Routed(_) => Some(lines(file, &labels)?),
        Verdict::Unroutable(_) | Verdict::Undecided(_) => None,
    };
    Ok((verdict, lines))
}

/// The lines of a routing whose labels stand at the front of a buffer.
fn lines(file: &[u8], labels: &[u8]) -> Result<Vec<u8>, Refusal> {
    let count = silienvo::read(file)?.connections as usize;
    view::lines(file, &labels[..count])
}

/// What the routing program prints, under any budget.
pub fn route(file: &[u8], budget: u32, out: &mut Output) -> Result<Status, Failure> {
    let (verdict, lines) = match routed(file, budget) {
        Ok(said) => said,
        Err(refusal) => return refused(refusal, out),
    };
    out.write(format!("{verdict}\n").as_bytes())?;
    out.write(&lines.unwrap_or_default())?;
    Ok(status_of(verdict))
}

/// The labels of a brought routing, parted by commas or blanks, in one word or more.
fn labels(words: &[OsString]) -> Result<Vec<u8>, Failure> {
    let text: Vec<_> = words.iter().map(|word| word.to_string_lossy()).collect();
    let given = text.iter().flat_map(|word| word.split([',', ' '])).filter(|label| !label.is_empty());
    given.map(|label| input::number(label.as_ref(), "a label")).collect()
}

pub fn judge(words: &[OsString], out: &mut Output) -> Result<Status, Failure> {
    let [name, given @ ..] = words else { return Err(Failure::new("a file is missing")) };
    if given.is_empty() {
        return Err(Failure::new("the labels are missing, as 1,2,1; no labels at all are ''"));
    }
    let (file, labels) = (input::file(name)?, labels(given)?);
    match silienvo::judge(&file, &labels) {
        Err(refusal) => refused(refusal, out),
        Ok(()) => {
            out.write(b"legal\n")?;
            Ok(Status::Good)
        }
    }
}

/// All lines by their numbers: the first refused by row 10 is one behind the last.
pub fn clauses(words: &[OsString], out: &mut Output) -> Result<Status, Failure> {
    let file = input::file(input::only(words, "a file")?)?;
    let mut buffer = [0; LINE];
    for number in 0.. {
        match silienvo::line(&file, number, &mut buffer) {
            Ok(length) => out.write(&buffer[..length as usize])?,
            Err(Refusal { number: 10, .. }) if number > 0 => break,
            Err(refusal) => return refused(refusal, out),
        }
    }
    Ok(Status::Good)
}

pub fn reply(words: &[OsString], out: &mut Output) -> Result<Status, Failure> {
    let file = input::file(input::only(words, "a file")?)?;
    let text = streams::standard_input()?;
    let mut labels = [0; MOST_CONNECTIONS];
    let (said, status) = match silienvo::reply(&file, &text, &mut labels) {
        Err(refusal) => return refused(refusal, out),
        Ok(Replied::Claimed) => (b"claimed\n".to_vec(), Status::No),
        Ok(Replied::Unknown) => (b"unknown\n".to_vec(), Status::Open),
        Ok(Replied::Accepted) => match lines(&file, &labels) {
            Err(refusal) => return refused(refusal, out),
            Ok(lines) => ([b"accepted\n", &lines[..]].concat(), Status::Good),
        },
    };
    out.write(&said)?;
    Ok(status)
}

/// The panel of a job's connections.
fn panel(file: &[u8]) -> Result<Panel, Refusal> {
    let job = Job::read(file)?;
    let mut panel = Panel::new(job.columns.into(), job.tracks.len() as u64)?;
    for connection in &job.connections {
        panel.add(connection.left.into(), connection.right.into(), connection.mark)?;
    }
    Ok(panel)
}

/// Whether the panel of a job is green or at which column it is red, then each column and its load.
pub fn loads(words: &[OsString], out: &mut Output) -> Result<Status, Failure> {
    let panel = match panel(&input::file(input::only(words, "a file")?)?) {
        Ok(panel) => panel,
        Err(refusal) => return refused(refusal, out),
    };
    let (mut text, status) = match panel.red() {
        None => ("green\n".to_string(), Status::Good),
        Some(column) => (format!("red {column}\n"), Status::No),
    };
    for (i, load) in panel.loads().iter().enumerate() {
        text.push_str(&format!("{} {load}\n", i + 1));
    }
    out.write(text.as_bytes())?;
    Ok(status)
}

pub fn draw(words: &[OsString], out: &mut Output) -> Result<Status, Failure> {
    let (budget, names) = input::budget(words)?;
    let name = input::only(&names, "a file")?;
    let file = input::file(name)?;
    let (job, verdict, lines) = match Job::read(&file).and_then(|job| routed(&file, budget).map(|(verdict, lines)| (job, verdict, lines))) {
        Ok(said) => said,
        Err(refusal) => return refused(refusal, out),
    };
    let rows = lines.map(|lines| view::rows(&lines));
    let title = Path::new(name).file_name().unwrap_or(name);
    let said = verdict.to_string().replace(' ', ", ") + " trials";
    out.write(draw::svg(&input::shown(title), &said, &job, rows.as_deref()).as_bytes())?;
    Ok(status_of(verdict))
}
