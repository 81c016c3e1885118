//! The incident replayed: one weekend the solver host was down, 1,312 empty replies were read as "no conflict found", and 1,312 channels were passed. Here
//! 1,312 generated channels are routed in one call, and their solver's replies come whole, empty, and cut at a random byte. What passes a flow is status 0.

use crate::checks::Checks;
use crate::shell::{Ended, Shell};
use second::fast::{self, Channel};
use second::make::{channel, full, joined, middle, small, spelled, Rng, Shape};
use second::{slow, Job, Verdict};
use std::io;

const CHANNELS: usize = 1312;
const BUDGET: u32 = 20_000;

/// A channel of the flow: its file, and what a solver would reply.
struct Asked {
    name: String,
    file: Vec<u8>,
    verdict: Verdict,
    reply: Vec<u8>,
}

fn generated(rng: &mut Rng, i: usize) -> Job {
    let shape = Shape { columns: 30, tracks: 5, connections: 9, limit: 2, segments: 5, span: 12, critical: 0 };
    let job = match i % 4 {
        0 => small(rng),
        1 => middle(rng),
        2 => channel(rng, &shape),
        _ => full(rng),
    };
    if rng.once_in(3) {
        joined(rng, job)
    } else {
        job
    }
}

/// The reply that says what the second router found, with a remark as solvers write them.
fn reply_to(channel: &Channel, verdict: &Verdict) -> Vec<u8> {
    let said = match verdict {
        Verdict::Routed { labels, .. } => {
            let codes: Vec<usize> = labels.iter().map(|&label| usize::from(label) - 1).collect();
            let words: String = spelled(&codes, channel.width()).iter().map(|literal| format!(" {literal}")).collect();
            format!("s SATISFIABLE\nv{words} 0\n")
        }
        Verdict::Unroutable { .. } => "s UNSATISFIABLE\n".to_string(),
        Verdict::Undecided { .. } => "s UNKNOWN\n".to_string(),
    };
    format!("c solved\n{said}").into_bytes()
}

fn asked(rng: &mut Rng, i: usize) -> Asked {
    let job = generated(rng, i);
    let channel = Channel::of(&job);
    let verdict = fast::search(&channel, BUDGET);
    Asked { name: format!("channel-{i}.job"), file: job.encode(), reply: reply_to(&channel, &verdict), verdict }
}

/// The line that a flow of many files has for a channel.
fn told(asked: &Asked) -> String {
    let (word, trials) = match &asked.verdict {
        Verdict::Routed { trials, .. } => ("routed", trials),
        Verdict::Unroutable { trials } => ("unroutable", trials),
        Verdict::Undecided { trials } => ("undecided", trials),
    };
    format!("{}: {word} {trials}", asked.name)
}

/// All channels in one call: a line each in order, a summary, the worst status, and progress.
fn flow(shell: &Shell, checks: &mut Checks, all: &[Asked]) -> io::Result<()> {
    let ended = shell.line(&format!("./silienvo route --budget {BUDGET} $(seq -f channel-%g.job 0 {})", CHANNELS - 1))?;
    let text = ended.text();
    let mut lines = text.lines();
    for asked in all {
        let (line, expected) = (lines.next().unwrap_or(""), told(asked));
        checks.check(line == expected, &format!("the flow says {expected}"), || line.to_string());
    }
    let count = |word: &str| all.iter().filter(|asked| told(asked).contains(word)).count();
    let [routed, unroutable, undecided] = [": routed ", ": unroutable ", ": undecided "].map(count);
    println!("{CHANNELS} channels: {routed} routed, {unroutable} unroutable, {undecided} undecided");
    let summary = format!("{CHANNELS} files: {routed} routed, {unroutable} unroutable, {undecided} undecided, 0 refused, 0 not read");
    checks.check(lines.next() == Some(&summary) && lines.next().is_none(), &format!("the flow ends with {summary}"), || ended.shown());
    checks.check(ended.status == Some(2) && routed > 0 && unroutable > 0 && undecided > 0, "the flow ends with the worst status", || {
        format!("{:?}", ended.status)
    });
    checks.check(ended.err.contains(&format!(" of {CHANNELS} files")), "the flow tells its progress", || ended.err.clone());
    Ok(())
}

/// What a whole reply comes to: the routing that the program prints, Claimed, or Unknown.
fn answered(asked: &Asked) -> (i32, String) {
    match asked.verdict {
        Verdict::Routed { .. } => {
            let printed = String::from_utf8_lossy(&fast::program(&asked.file)).into_owned();
            (0, format!("accepted\n{}", printed.split_once('\n').map_or("", |(_, rows)| rows)))
        }
        Verdict::Unroutable { .. } => (1, "claimed\n".to_string()),
        Verdict::Undecided { .. } => (2, "unknown\n".to_string()),
    }
}

fn same(ended: &Ended, expected: &(i32, String)) -> bool {
    ended.status == Some(expected.0) && ended.text() == expected.1
}

/// Whole, empty, and cut at a random byte. An empty reply is refused; a cut one is refused or answered as the whole one.
fn replies(shell: &Shell, checks: &mut Checks, asked: &Asked, rng: &mut Rng) -> io::Result<()> {
    let expected = answered(asked);
    let words = ["reply", &asked.name];
    let whole = shell.command(&words, &asked.reply)?;
    checks.check(same(&whole, &expected), &format!("{}: the whole reply is {expected:?}", asked.name), || whole.shown());
    let empty = shell.command(&words, b"")?;
    checks.check(same(&empty, &(3, "refused 6 0\n".to_string())), &format!("{}: an empty reply is refused", asked.name), || empty.shown());
    let cut = shell.command(&words, &asked.reply[..rng.below(asked.reply.len())])?;
    let refused = cut.status == Some(3) && cut.text().starts_with("refused ");
    checks.check(refused || same(&cut, &expected), &format!("{}: a cut reply is refused or answered the same", asked.name), || cut.shown());
    Ok(())
}

/// One file at a time, and the text of a job back to its bytes.
fn alone(shell: &Shell, checks: &mut Checks, asked: &Asked) -> io::Result<()> {
    let printed = fast::program(&asked.file);
    let ended = shell.command(&["route", &asked.name], b"")?;
    checks.check(ended.out == printed, &format!("{}: the command prints what the program prints", asked.name), || ended.shown());
    let text = shell.command(&["show", &asked.name], b"")?;
    let back = shell.command(&["job"], &text.out)?;
    checks.check(back.out == asked.file && back.status == Some(0), &format!("{}: show and job are inverse", asked.name), || text.shown());
    Ok(())
}

/// The loads by the document's words, and that a channel with a routing is green.
fn loads(shell: &Shell, checks: &mut Checks, asked: &Asked) -> io::Result<()> {
    let job = fast::read(&asked.file).expect("a channel's job");
    let load = |&column: &u8| slow::load(&job.connections, column);
    let red = (1..=job.columns).find(|column| load(column) > job.tracks.len());
    let lines: String = (1..=job.columns).map(|column| format!("{column} {}\n", load(&column))).collect();
    let expected = red.map_or((0, format!("green\n{lines}")), |column| (1, format!("red {column}\n{lines}")));
    let ended = shell.command(&["loads", &asked.name], b"")?;
    checks.check(same(&ended, &expected), &format!("{}: the loads are {expected:?}", asked.name), || ended.shown());
    let routed = matches!(asked.verdict, Verdict::Routed { .. });
    checks.check(!routed || ended.status == Some(0), &format!("{}: what has a routing is green", asked.name), || ended.shown());
    Ok(())
}

pub fn run(shell: &Shell, checks: &mut Checks) -> io::Result<()> {
    checks.group("the incident");
    let mut rng = Rng::new(1312);
    let all: Vec<Asked> = (0..CHANNELS).map(|i| asked(&mut rng, i)).collect();
    for asked in &all {
        shell.write(&asked.name, &asked.file)?;
    }
    flow(shell, checks, &all)?;
    for (i, asked) in all.iter().enumerate() {
        replies(shell, checks, asked, &mut rng)?;
        loads(shell, checks, asked)?;
        if i % 4 != 3 || i < 100 {
            alone(shell, checks, asked)?;
        }
    }
    Ok(())
}
