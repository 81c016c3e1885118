//! Routing: one file as the routing program does, many with a line each, side by side on the machine's cores and told in the order given.

use crate::status::{Failure, Status};
use crate::streams::{self, Output};
use crate::{input, tell};
use silienvo::{Refusal, Verdict};
use std::collections::BTreeMap;
use std::ffi::OsString;
use std::fmt;
use std::sync::atomic::{AtomicUsize, Ordering};
use std::sync::mpsc::{self, RecvTimeoutError};
use std::time::{Duration, Instant};

pub fn route(words: &[OsString], out: &mut Output) -> Result<Status, Failure> {
    let (budget, names) = input::budget(words)?;
    match &names[..] {
        [] => Err(Failure::new("a file is missing")),
        [name] => tell::route(&input::file(name)?, budget, out),
        names => many(names, budget, out),
    }
}

/// What became of one file of many.
enum Outcome {
    Decided(Verdict),
    Refused(Refusal),
    NotRead(Failure),
}

impl Outcome {
    fn of(name: &OsString, budget: u32) -> Outcome {
        match input::file(name).map(|file| tell::routed(&file, budget)) {
            Ok(Ok((verdict, _))) => Outcome::Decided(verdict),
            Ok(Err(refusal)) => Outcome::Refused(refusal),
            Err(failure) => Outcome::NotRead(failure),
        }
    }

    fn status(&self) -> Status {
        match self {
            Outcome::Decided(verdict) => tell::status_of(*verdict),
            Outcome::Refused(_) => Status::Refused,
            Outcome::NotRead(_) => Status::Failed,
        }
    }
}

impl fmt::Display for Outcome {
    fn fmt(&self, f: &mut fmt::Formatter) -> fmt::Result {
        match self {
            Outcome::Decided(verdict) => verdict.fmt(f),
            Outcome::Refused(Refusal { number, place }) => write!(f, "refused {number} {place}"),
            Outcome::NotRead(_) => f.write_str("not read"),
        }
    }
}

/// How many files had each status, and how many are told.
struct Tally {
    counts: [usize; 5],
    files: usize,
    said: Instant,
}

impl Tally {
    fn told(&self) -> usize {
        self.counts.iter().sum()
    }

    fn add(&mut self, status: Status) {
        self.counts[status as usize] += 1;
        let tenth = (self.files / 10).max(1);
        if self.told() % tenth == 0 {
            self.progress();
        }
    }

    fn progress(&mut self) {
        streams::say(&format!("{} of {} files", self.told(), self.files));
        self.said = Instant::now();
    }

    fn worst(&self) -> Status {
        let all = [Status::Failed, Status::Refused, Status::Open, Status::No];
        all.into_iter().find(|&status| self.counts[status as usize] > 0).unwrap_or(Status::Good)
    }

    fn summary(&self) -> String {
        let [routed, unroutable, undecided, refused, not_read] = self.counts;
        format!("{} files: {routed} routed, {unroutable} unroutable, {undecided} undecided, {refused} refused, {not_read} not read\n", self.files)
    }
}

/// A line for each file in the order given, and a last line with the counts. Progress goes to standard error.
fn many(names: &[OsString], budget: u32, out: &mut Output) -> Result<Status, Failure> {
    let next = AtomicUsize::new(0);
    let (send, outcomes) = mpsc::channel();
    let workers = std::thread::available_parallelism().map_or(1, |cores| cores.get()).min(names.len());
    std::thread::scope(|scope| {
        for _ in 0..workers {
            let (send, next) = (send.clone(), &next);
            scope.spawn(move || loop {
                let i = next.fetch_add(1, Ordering::Relaxed);
                let Some(name) = names.get(i) else { return };
                if send.send((i, Outcome::of(name, budget))).is_err() {
                    return;
                }
            });
        }
        drop(send);
        tell_in_order(names, outcomes, out)
    })
}

/// Tells outcomes as they come, each as soon as all before it are told. If an outcome never comes, that is a failure.
fn tell_in_order(names: &[OsString], outcomes: mpsc::Receiver<(usize, Outcome)>, out: &mut Output) -> Result<Status, Failure> {
    let mut tally = Tally { counts: [0; 5], files: names.len(), said: Instant::now() };
    let mut waiting = BTreeMap::new();
    while tally.told() < names.len() {
        match outcomes.recv_timeout(Duration::from_secs(1)) {
            Ok((i, outcome)) => drop(waiting.insert(i, outcome)),
            Err(RecvTimeoutError::Disconnected) if !waiting.contains_key(&tally.told()) => {
                return Err(Failure::new(format!("{} was left without an answer", input::shown(&names[tally.told()]))));
            }
            Err(RecvTimeoutError::Timeout | RecvTimeoutError::Disconnected) => {}
        }
        while let Some(outcome) = waiting.remove(&tally.told()) {
            let name = &names[tally.told()];
            if let Outcome::NotRead(failure) = &outcome {
                streams::say(&failure.to_string());
            }
            out.write(format!("{}: {outcome}\n", input::shown(name)).as_bytes())?;
            tally.add(outcome.status());
        }
        out.flush()?;
        if tally.said.elapsed() >= Duration::from_secs(1) {
            tally.progress();
        }
    }
    out.write(tally.summary().as_bytes())?;
    Ok(tally.worst())
}
