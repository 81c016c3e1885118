//! Clause lines: the whole list, by its three groups.

use super::channel::{barred, collide};
use crate::Job;

/// A clause: its literals, in variable order.
pub type Clause = Vec<i64>;

/// The least whole number w with 2^w ≥ T, but at least 1.
pub fn width(job: &Job) -> u32 {
    (1..).find(|&w| 2usize.pow(w) >= job.tracks.len()).expect("a width")
}

/// The literals that forbid a code for connection m, from 1: each variable plain where the code's bit is 0 and negated where it is 1.
fn forbid(job: &Job, m: usize, code: usize) -> Clause {
    let w = width(job);
    (1..=w)
        .map(|b| {
            let variable = ((m - 1) * w as usize + b as usize) as i64;
            let bit = (code / 2usize.pow(w - b)) % 2;
            if bit == 0 {
                variable
            } else {
                -variable
            }
        })
        .collect()
}

/// Clauses 1 to C.
pub fn clauses(job: &Job) -> Vec<Clause> {
    let (count, tracks) = (job.connections.len(), job.tracks.len());
    let c = |m: usize| &job.connections[m - 1];
    let mut all = Vec::new();
    for m in 1..=count {
        for code in tracks..2usize.pow(width(job)) {
            all.push(forbid(job, m, code));
        }
    }
    for m in 1..=count {
        for track in 1..=tracks {
            if barred(job, track, c(m)) {
                all.push(forbid(job, m, track - 1));
            }
        }
    }
    for m in 1..=count {
        for n in m + 1..=count {
            for track in 1..=tracks {
                if collide(job, track, c(m), c(n)) && !barred(job, track, c(m)) && !barred(job, track, c(n)) {
                    all.push([forbid(job, m, track - 1), forbid(job, n, track - 1)].concat());
                }
            }
        }
    }
    all
}

/// Lines 0 to C, each with its LF.
pub fn lines(job: &Job) -> Vec<String> {
    let clauses = clauses(job);
    let variables = job.connections.len() * width(job) as usize;
    let mut all = vec![format!("p cnf {variables} {}\n", clauses.len())];
    for clause in &clauses {
        let words: Vec<String> = clause.iter().map(i64::to_string).collect();
        all.push(format!("{} 0\n", words.join(" ")));
    }
    all
}

/// A clause is false under a model if each of its literals is.
pub fn false_under(clause: &Clause, value: impl Fn(u64) -> bool) -> bool {
    clause.iter().all(|&literal| value(literal.unsigned_abs()) != (literal > 0))
}
