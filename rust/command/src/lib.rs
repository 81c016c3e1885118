//! The library's exports for a person at a shell. Nothing is decided here: every verdict, number and byte of an answer comes out of the library. What is
//! here is how words and files become calls, how an answer is told, and that none is lost on the way out (`streams`, `status`).

mod draw;
mod flow;
mod input;
mod status;
mod streams;
mod tell;
mod text;
mod view;

use status::{Failure, Status};
use std::ffi::OsString;
use streams::Output;

/// A subcommand: its name, what it takes, what it does, and the function.
struct Command {
    name: &'static str,
    takes: &'static str,
    does: &'static str,
    run: fn(&[OsString], &mut Output) -> Result<Status, Failure>,
}

const COMMANDS: [Command; 9] = [
    Command { name: "route", takes: "[--budget N] FILE...", does: "routes jobs: the verdict and the rows, or a line a file", run: flow::route },
    Command { name: "judge", takes: "FILE LABELS", does: "judges a routing, a label a connection: 1,2,1", run: tell::judge },
    Command { name: "clauses", takes: "FILE", does: "writes the clauses for a solver, as DIMACS", run: tell::clauses },
    Command { name: "reply", takes: "FILE < REPLY", does: "reads a solver's reply: the rows if it is accepted", run: tell::reply },
    Command { name: "loads", takes: "FILE", does: "tells how many nets cross each column, and the first column with too many", run: tell::loads },
    Command { name: "p1", takes: "K < TEXT", does: "writes the job file of house part P1, from lines `connection 1 2`", run: text::p1 },
    Command { name: "draw", takes: "[--budget N] FILE", does: "draws a job and its routing, as SVG", run: tell::draw },
    Command { name: "show", takes: "FILE", does: "writes a job as text", run: text::show },
    Command { name: "job", takes: "< TEXT", does: "writes that text as a job file", run: text::job },
];

/// What `help` says.
fn help() -> String {
    let mut text = String::from("silienvo: a router for segmented channels whose answers are proved\n\n");
    for Command { name, takes, does, .. } in COMMANDS {
        text.push_str(&format!("  silienvo {:<29} {does}\n", format!("{name} {takes}")));
    }
    text.push_str("  silienvo help                          says this\n\nThe budget is 1,000,000 trials if none is given.\n\n");
    text.push_str(status::TABLE);
    text
}

/// Whether these words ask for help: `help`, or `--help` alone or alone behind a command. Among other words `--help` may be the name of a file.
fn ask_help(words: &[OsString]) -> bool {
    match words {
        [first, ..] if first == "help" => true,
        [word] | [_, word] => word == "--help" || word == "-h",
        _ => false,
    }
}

/// The answer to the words of a command line, written whole, or a failure.
fn answer(words: &[OsString]) -> Result<Status, Failure> {
    let mut out = Output::standard()?;
    let Some((name, rest)) = words.split_first() else { return Err(Failure::new("a command is missing; `silienvo help` lists them")) };
    let status = if ask_help(words) {
        out.write(help().as_bytes())?;
        Status::Good
    } else if let Some(command) = COMMANDS.iter().find(|command| name == command.name) {
        (command.run)(rest, &mut out)?
    } else {
        return Err(Failure::new(format!("no command `{}`; `silienvo help` lists them", input::shown(name))));
    };
    out.finish()?;
    Ok(status)
}

/// Carries a command line out and gives its exit status. A failure is said on standard error; so is a panic, and both are the same status.
pub fn run(words: Vec<OsString>) -> i32 {
    streams::take_signals_as_errors();
    let status = std::panic::catch_unwind(|| {
        answer(&words).unwrap_or_else(|failure| {
            streams::say(&failure.to_string());
            Status::Failed
        })
    });
    status.unwrap_or(Status::Failed) as i32
}
