//! CaDiCaL and MiniSat, run on a file of clauses.

use std::fmt;
use std::path::Path;
use std::process::Command;
use std::time::Instant;

#[derive(Clone, Copy, Debug, PartialEq, Eq)]
pub enum Said {
    Satisfiable,
    Unsatisfiable,
    Unknown,
}

impl fmt::Display for Said {
    fn fmt(&self, f: &mut fmt::Formatter) -> fmt::Result {
        f.pad(match self {
            Said::Satisfiable => "yes",
            Said::Unsatisfiable => "no",
            Said::Unknown => "?",
        })
    }
}

/// What a solver made of a channel: its reply in the competition's format, and its own format where that is another.
pub struct Solver {
    pub name: &'static str,
    pub said: Said,
    pub reply: Vec<u8>,
    pub own_format: Option<Vec<u8>>,
    pub seconds: f64,
}

/// CaDiCaL writes the competition's format: with its comments, or quiet.
pub fn cadical(file: &Path, seconds: u32, quiet: bool) -> std::io::Result<Solver> {
    let start = Instant::now();
    let mut command = Command::new("cadical");
    command.arg("-t").arg(seconds.to_string());
    if quiet {
        command.arg("-q");
    }
    let output = command.arg(file).output()?;
    let said = match output.status.code() {
        Some(10) => Said::Satisfiable,
        Some(20) => Said::Unsatisfiable,
        _ => Said::Unknown,
    };
    let name = if quiet { "cadical -q" } else { "cadical" };
    Ok(Solver { name, said, reply: output.stdout, own_format: None, seconds: start.elapsed().as_secs_f64() })
}

/// MiniSat writes `SAT` and the literals, or `UNSAT`, to a file of its own format, which is turned into the competition's here. It leaves out
/// variables that no clause has; any value will do for those.
pub fn minisat(file: &Path, variables: usize, seconds: u32) -> std::io::Result<Solver> {
    let start = Instant::now();
    let result = file.with_extension("minisat");
    Command::new("minisat").arg("-verb=0").arg(format!("-cpu-lim={seconds}")).arg(file).arg(&result).output()?;
    let seconds = start.elapsed().as_secs_f64();
    let own = std::fs::read(&result)?;
    std::fs::remove_file(&result)?;
    let text = String::from_utf8_lossy(&own).into_owned();
    let mut words = text.split_whitespace();
    let (said, reply) = match words.next() {
        Some("SAT") => (Said::Satisfiable, model(words, variables)),
        Some("UNSAT") => (Said::Unsatisfiable, "s UNSATISFIABLE\n".to_string()),
        _ => (Said::Unknown, "s UNKNOWN\n".to_string()),
    };
    Ok(Solver { name: "minisat", said, reply: reply.into_bytes(), own_format: Some(own), seconds })
}

/// A model of all variables, from literals that end in `0`.
fn model<'a>(words: impl Iterator<Item = &'a str>, variables: usize) -> String {
    let mut literals: Vec<i64> = words.filter_map(|word| word.parse().ok()).filter(|&literal| literal != 0).collect();
    let missing: Vec<i64> = (1..=variables as i64).filter(|&v| !literals.contains(&v) && !literals.contains(&-v)).collect();
    literals.extend(missing);
    let words: String = literals.iter().map(|literal| format!(" {literal}")).collect();
    format!("s SATISFIABLE\nv{words} 0\n")
}
