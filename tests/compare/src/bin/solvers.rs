//! Real solvers on exported channels: `solvers PROBE FOLDER [--seed S]`.
//!
//! Each channel is exported line by line through the probe, solved by CaDiCaL and by MiniSat, and what they say is fed back. A model must be
//! accepted and its labels judged legal; UNSATISFIABLE must be Claimed; where the router decides, it must agree with each solver that does.
//! The last line is `N passed, F failed`.

use compare::channels::{channels, Channel};
use compare::solver::{cadical, minisat, Said, Solver};
use compare::talk::{next_line, Probe};
use second::make::spelled;
use std::io::Write;
use std::path::{Path, PathBuf};
use std::time::Instant;
use wire::Request;

/// The router's budget: what it decides within this many trials, it must decide as the solvers do.
const BUDGET: u32 = 50_000_000;
/// Seconds that a solver may take for a channel.
const SECONDS: u32 = 5;

struct Run {
    probe: PathBuf,
    folder: PathBuf,
    passed: u64,
    failed: u64,
}

impl Run {
    fn check(&mut self, holds: bool, what: impl FnOnce() -> String) {
        if holds {
            self.passed += 1;
        } else {
            self.failed += 1;
            print!("\n  FAILED: {}", what());
        }
    }
}

/// The answers to requests, in order; one thread writes while this one reads.
fn ask_all(probe: &Path, requests: impl Iterator<Item = Request> + Send) -> std::io::Result<Vec<Vec<u8>>> {
    let (mut child, input, mut output) = Probe::start(probe)?.parts();
    let mut answers = Vec::new();
    std::thread::scope(|scope| {
        scope.spawn(move || {
            let mut input = std::io::BufWriter::with_capacity(1 << 16, input);
            for request in requests {
                let mut line = Vec::new();
                request.write(&mut line);
                if input.write_all(&line).is_err() {
                    return;
                }
            }
            let _ = input.flush();
        });
        while let Ok(answer) = next_line(&mut output) {
            answers.push(answer);
        }
    });
    child.wait()?;
    Ok(answers)
}

fn ask(probe: &Path, request: Request) -> std::io::Result<String> {
    let mut line = Vec::new();
    request.write(&mut line);
    line.pop();
    let mut probe = Probe::start(probe)?;
    let answer = probe.ask(&line)?;
    probe.end()?;
    Ok(String::from_utf8_lossy(&answer).into_owned())
}

/// The bytes of a line that was written to the front of a buffer.
fn line_of(answer: &[u8]) -> Option<Vec<u8>> {
    let answer = std::str::from_utf8(answer).ok()?;
    let [word, length, buffer] = answer.split(' ').collect::<Vec<_>>()[..] else { return None };
    let buffer = wire::bytes(buffer.as_bytes())?;
    (word == "line").then(|| buffer[..length.parse().unwrap_or(0)].to_vec())
}

/// All lines of a channel, by their numbers, and C by line 0.
fn export(probe: &Path, file: &[u8]) -> std::io::Result<Option<(Vec<u8>, u64)>> {
    let line = |number| Request::Line { file: file.to_vec(), number, buffer: vec![0; 62] };
    let Some(head) = ask_all(probe, [line(0)].into_iter())?.first().and_then(|answer| line_of(answer)) else { return Ok(None) };
    let text = String::from_utf8_lossy(&head);
    let Some(count) = text.trim_end().split(' ').nth(3).and_then(|c| c.parse().ok()) else { return Ok(None) };
    let answers = ask_all(probe, (1..=count).map(line))?;
    let lines: Option<Vec<Vec<u8>>> = answers.iter().map(|answer| line_of(answer)).collect();
    Ok(lines.filter(|lines| lines.len() as u64 == count).map(|lines| ([head, lines.concat()].concat(), count)))
}

/// What the router says of a channel.
fn router(run: &mut Run, channel: &Channel) -> std::io::Result<Said> {
    let count = channel.job.connections.len();
    let answer = ask(&run.probe, Request::Route { file: channel.file.clone(), budget: BUDGET, labels: vec![0; count] })?;
    let words: Vec<&str> = answer.split(' ').collect();
    Ok(match words[..] {
        ["routed", _, labels] => {
            let labels = wire::bytes(labels.as_bytes()).unwrap_or_default();
            let judged = ask(&run.probe, Request::Judge { file: channel.file.clone(), labels: labels.clone() })?;
            run.check(judged == "legal", || format!("the router's routing is judged {judged}"));
            // The routing as a model: it must satisfy the clauses that were exported.
            let codes: Vec<usize> = labels.iter().map(|&label| usize::from(label) - 1).collect();
            let words: String = spelled(&codes, channel.width()).iter().map(|literal| format!(" {literal}")).collect();
            let text = format!("s SATISFIABLE\nv{words} 0\n");
            let replied = ask(&run.probe, Request::Reply { file: channel.file.clone(), text: text.into_bytes(), labels: vec![0; count] })?;
            run.check(replied.starts_with("accepted"), || format!("the router's routing as a model is answered {replied}"));
            Said::Satisfiable
        }
        ["unroutable", ..] => Said::Unsatisfiable,
        ["undecided", ..] => Said::Unknown,
        _ => {
            run.check(false, || format!("the router answers {answer}"));
            Said::Unknown
        }
    })
}

/// Feeds a solver's reply back.
fn feed(run: &mut Run, channel: &Channel, solver: &Solver) -> std::io::Result<()> {
    let count = channel.job.connections.len();
    let reply = |text: &[u8]| Request::Reply { file: channel.file.clone(), text: text.to_vec(), labels: vec![0; count] };
    let answer = ask(&run.probe, reply(&solver.reply))?;
    let name = solver.name;
    match solver.said {
        Said::Satisfiable => {
            let labels = answer.strip_prefix("accepted ").and_then(|labels| wire::bytes(labels.as_bytes()));
            run.check(labels.is_some(), || format!("{name}'s model is answered {answer}"));
            let judged = ask(&run.probe, Request::Judge { file: channel.file.clone(), labels: labels.unwrap_or_default() })?;
            run.check(judged == "legal", || format!("{name}'s routing is judged {judged}"));
        }
        Said::Unsatisfiable => run.check(answer.starts_with("claimed"), || format!("{name}'s UNSATISFIABLE is answered {answer}")),
        Said::Unknown => {
            run.check(answer.starts_with("unknown") || answer.starts_with("refused 6 0"), || format!("{name} without a verdict is answered {answer}"))
        }
    }
    if let Some(own) = &solver.own_format {
        let answer = ask(&run.probe, reply(own))?;
        run.check(answer.starts_with("refused 6 1"), || format!("{name}'s own format is answered {answer}"));
    }
    Ok(())
}

fn channel(run: &mut Run, channel: &Channel) -> std::io::Result<()> {
    let start = Instant::now();
    let job = &channel.job;
    print!("{:<28} N {:>3} M {:>2} T {:>2} K {:>2}: ", channel.name, job.columns, job.connections.len(), job.tracks.len(), job.limit);
    let Some((text, count)) = export(&run.probe, &channel.file)? else {
        println!("not exported");
        run.check(false, || "a line was not given".to_string());
        return Ok(());
    };
    print!("{count:>6} clauses in {:.1} s", start.elapsed().as_secs_f64());
    let variables = channel.job.connections.len() * channel.width();
    let path = run.folder.join("channel.cnf");
    std::fs::write(&path, &text)?;
    let routed = router(run, channel)?;
    print!("; router {routed}");
    for solver in [cadical(&path, SECONDS, false)?, cadical(&path, SECONDS, true)?, minisat(&path, variables, SECONDS)?] {
        print!("; {} {} {:.2} s", solver.name, solver.said, solver.seconds);
        std::io::stdout().flush()?;
        feed(run, channel, &solver)?;
        let agree = routed == Said::Unknown || solver.said == Said::Unknown || routed == solver.said;
        run.check(agree, || format!("{} says {}, the router {routed}", solver.name, solver.said));
    }
    println!();
    Ok(())
}

fn main() -> std::io::Result<()> {
    let args: Vec<String> = std::env::args().skip(1).collect();
    let (probe, folder, seed) = match &args.iter().map(String::as_str).collect::<Vec<_>>()[..] {
        [probe, folder] => (PathBuf::from(probe), PathBuf::from(folder), 1),
        [probe, folder, "--seed", seed] => (PathBuf::from(probe), PathBuf::from(folder), seed.parse().unwrap_or(1)),
        _ => {
            eprintln!("usage: solvers PROBE FOLDER [--seed S]");
            std::process::exit(2);
        }
    };
    let mut run = Run { probe, folder, passed: 0, failed: 0 };
    for one in channels(seed) {
        channel(&mut run, &one)?;
    }
    println!("{} passed, {} failed", run.passed, run.failed);
    std::process::exit(i32::from(run.failed > 0));
}
