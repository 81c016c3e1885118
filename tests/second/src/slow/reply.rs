//! A solver's reply: lines, words, and rows 6, 7 and 8 of the table.

use super::clauses::{clauses, false_under, width};
use crate::{Job, Replied};

#[derive(Clone, Copy, Debug, PartialEq, Eq)]
enum Status {
    Satisfiable,
    Unsatisfiable,
    Unknown,
}

/// A well-formed line.
#[derive(Clone, Debug, PartialEq, Eq)]
enum Line {
    Empty,
    Comment,
    Status(Status),
    Values(Vec<i64>),
}

/// LF ends a line; the last may lack it; an empty rest after the last LF is no line.
fn lines(text: &[u8]) -> Vec<&[u8]> {
    let mut all: Vec<&[u8]> = text.split(|&b| b == b'\n').collect();
    if all.last().is_some_and(|rest| rest.is_empty()) {
        all.pop();
    }
    all
}

fn line(bytes: &[u8]) -> Option<Line> {
    match bytes {
        b"" => Some(Line::Empty),
        b"c" => Some(Line::Comment),
        b"s SATISFIABLE" => Some(Line::Status(Status::Satisfiable)),
        b"s UNSATISFIABLE" => Some(Line::Status(Status::Unsatisfiable)),
        b"s UNKNOWN" => Some(Line::Status(Status::Unknown)),
        _ if bytes.starts_with(b"c ") => Some(Line::Comment),
        _ => {
            let words: Vec<&[u8]> = bytes.split(|&b| b == b' ').collect();
            if words[0] != b"v" || words.len() < 2 {
                return None;
            }
            words[1..].iter().map(|word| literal(word)).collect::<Option<Vec<i64>>>().map(Line::Values)
        }
    }
}

/// A literal is `0`, or an optional minus and one to three digits, the first not 0.
fn literal(word: &[u8]) -> Option<i64> {
    if word == b"0" {
        return Some(0);
    }
    let (sign, digits) = match word {
        [b'-', digits @ ..] => (-1, digits),
        digits => (1, digits),
    };
    let fine = (1..=3).contains(&digits.len()) && digits.iter().all(u8::is_ascii_digit) && digits[0] != b'0';
    fine.then(|| sign * digits.iter().fold(0, |n, &d| 10 * n + i64::from(d - b'0')))
}

/// All lines, of a text that has only well-formed ones.
fn well_formed(text: &[u8]) -> Vec<Line> {
    lines(text).into_iter().map(|bytes| line(bytes).expect("a well-formed line")).collect()
}

fn statuses(all: &[Line]) -> Vec<Status> {
    all.iter().filter_map(|line| if let Line::Status(status) = line { Some(*status) } else { None }).collect()
}

/// The literals of all `v` lines together, `0` included.
fn literals(all: &[Line]) -> Vec<i64> {
    all.iter().flat_map(|line| if let Line::Values(literals) = line { literals.clone() } else { Vec::new() }).collect()
}

/// Row 6.
pub fn not_a_reply(text: &[u8]) -> Option<u64> {
    if let Some(i) = lines(text).iter().position(|bytes| line(bytes).is_none()) {
        return Some(i as u64 + 1);
    }
    let all = well_formed(text);
    let (statuses, literals) = (statuses(&all), literals(&all));
    if statuses.len() != 1 {
        return Some(0);
    }
    let kept = match statuses[0] {
        Status::Satisfiable => literals.iter().filter(|&&l| l == 0).count() == 1 && literals.last() == Some(&0),
        _ => !all.iter().any(|line| matches!(line, Line::Values(_))),
    };
    (!kept).then_some(0)
}

/// The literals before `0`, of a reply that says SATISFIABLE; none of another.
fn model(text: &[u8]) -> Option<Vec<i64>> {
    let all = well_formed(text);
    let mut literals = literals(&all);
    literals.pop();
    (statuses(&all)[0] == Status::Satisfiable).then_some(literals)
}

/// Row 7.
pub fn not_a_model(job: &Job, text: &[u8]) -> Option<u64> {
    let model = model(text)?;
    let variables = (job.connections.len() * width(job) as usize) as u64;
    let bad = |i: usize| model[i].unsigned_abs() > variables || (0..i).any(|j| model[j].unsigned_abs() == model[i].unsigned_abs());
    if let Some(i) = (0..model.len()).find(|&i| bad(i)) {
        return Some(i as u64 + 1);
    }
    let missing = (1..=variables).any(|variable| !model.iter().any(|l| l.unsigned_abs() == variable));
    missing.then_some(model.len() as u64 + 1)
}

/// Row 8.
pub fn first_false(job: &Job, text: &[u8]) -> Option<u64> {
    let model = model(text)?;
    let clauses = clauses(job);
    (1..=clauses.len()).find(|&n| false_under(&clauses[n - 1], |variable| model.contains(&(variable as i64)))).map(|n| n as u64)
}

/// The answer to a reply of which no row holds.
pub fn answer(job: &Job, text: &[u8]) -> Replied {
    let model = match model(text) {
        Some(model) => model,
        None if statuses(&well_formed(text))[0] == Status::Unknown => return Replied::Unknown,
        None => return Replied::Claimed,
    };
    let w = width(job) as usize;
    let label = |m: usize| {
        let code = (1..=w).fold(0, |code, b| 2 * code + usize::from(model.contains(&(((m - 1) * w + b) as i64))));
        (code + 1) as u8
    };
    Replied::Accepted { labels: (1..=job.connections.len()).map(label).collect() }
}
