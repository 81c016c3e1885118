//! Holds a program that speaks the probe's protocol against the second router.
//!
//! `compare PROBE [--requests N] [--seed S]`, or `compare --self [...]`, which holds the second router's two ways against each other.
//! The last line is `N passed, F failed`; the exit status is 0 if F is 0. An answer that never came in the table counts as a failure.

use compare::{table::Table, talk};
use second::boundary;
use second::make::{batch, edits, Asked, Rng};
use second::protocol::{answer_text, Way};
use std::io::Write;
use std::path::{Path, PathBuf};
use std::sync::atomic::{AtomicU64, Ordering};
use std::sync::{mpsc, Mutex};
use std::time::{Duration, Instant};
use wire::Request;

const WORKERS: u64 = 2;
const SHOWN: usize = 5;

struct Options {
    probe: Option<PathBuf>,
    requests: u64,
    seed: u64,
}

fn options() -> Option<Options> {
    let mut options = Options { probe: None, requests: 2_000_000, seed: 1 };
    let mut args = std::env::args().skip(1);
    let mut chosen = false;
    while let Some(arg) = args.next() {
        match arg.as_str() {
            "--self" => chosen = true,
            "--requests" => options.requests = args.next()?.parse().ok()?,
            "--seed" => options.seed = args.next()?.parse().ok()?,
            path => {
                options.probe = Some(path.into());
                chosen = true;
            }
        }
    }
    chosen.then_some(options)
}

/// What the workers add to while they run.
struct Shared {
    passed: AtomicU64,
    failed: AtomicU64,
    shown: Mutex<Vec<String>>,
}

impl Shared {
    fn compare(&self, line: &[u8], expected: &[u8], got: &[u8]) {
        if expected == got {
            self.passed.fetch_add(1, Ordering::Relaxed);
            return;
        }
        self.failed.fetch_add(1, Ordering::Relaxed);
        let mut shown = self.shown.lock().expect("no panic");
        if shown.len() < SHOWN {
            let text = |bytes: &[u8]| String::from_utf8_lossy(bytes).into_owned();
            shown.push(format!("  request  {}\n  expected {}\n  got      {}", text(line), text(expected), text(got)));
        }
    }
}

/// A request on its way: the line, what is expected, and the request for the table.
struct Sent {
    line: Vec<u8>,
    expected: Vec<u8>,
    request: Option<Request>,
}

/// How many requests a worker makes.
fn share(options: &Options) -> usize {
    (options.requests / WORKERS) as usize
}

/// Requests from a seed, without an end: a batch about a job, then some about a panel, from numbers of their own.
fn requests(worker: u64, options: &Options) -> impl Iterator<Item = Asked> {
    let seed = options.seed * WORKERS + worker;
    let (mut jobs, mut panels) = (Rng::new(seed), Rng::new(seed ^ 1 << 32));
    std::iter::from_fn(move || Some([batch(&mut jobs), edits(&mut panels)])).flatten().flatten()
}

/// Sends requests from a seed, and the boundary runs first where this is the first worker.
fn send(worker: u64, options: &Options, mut out: impl Write, sent: mpsc::Sender<Sent>) -> std::io::Result<()> {
    let mut lines = Vec::new();
    let mut put = |line: Vec<u8>, expected: Vec<u8>, request| -> std::io::Result<()> {
        lines.extend_from_slice(&line);
        lines.push(b'\n');
        let _ = sent.send(Sent { line, expected, request });
        if lines.len() > 1 << 15 {
            out.write_all(&lines)?;
            lines.clear();
        }
        Ok(())
    };
    let mut count = 0;
    if worker == 0 {
        for (line, expected) in boundary::requests() {
            let request = Request::parse(line.as_bytes()).ok();
            put(line.into_bytes(), expected.into_bytes(), request)?;
            count += 1;
        }
    }
    for asked in requests(worker, options).take(share(options).saturating_sub(count)) {
        let mut line = Vec::new();
        asked.request.write(&mut line);
        line.pop();
        put(line, answer_text(asked.way, asked.request.clone()), Some(asked.request))?;
    }
    out.write_all(&lines)
}

/// Compares answers as they come.
fn receive(mut output: impl std::io::BufRead, sent: mpsc::Receiver<Sent>, shared: &Shared) -> Table {
    let mut table = Table::default();
    for sent in sent {
        match talk::next_line(&mut output) {
            Ok(answer) => {
                shared.compare(&sent.line, &sent.expected, &answer);
                if let Some(request) = &sent.request {
                    table.count(request, &answer);
                }
            }
            Err(e) => shared.compare(&sent.line, &sent.expected, e.to_string().as_bytes()),
        }
    }
    table
}

fn with_probe(worker: u64, probe: &Path, options: &Options, shared: &Shared) -> Table {
    let (mut child, input, output) = talk::Probe::start(probe).expect("the probe starts").parts();
    let (sender, receiver) = mpsc::channel();
    let table = std::thread::scope(|scope| {
        let table = scope.spawn(|| receive(output, receiver, shared));
        if let Err(e) = send(worker, options, input, sender) {
            eprintln!("worker {worker}: {e}");
        }
        table.join().expect("the receiver ends")
    });
    let _ = child.wait();
    table
}

/// The definitions against the fast way, and the boundary runs against the fast way.
fn with_itself(worker: u64, options: &Options, shared: &Shared) -> Table {
    let mut table = Table::default();
    let mut count = 0;
    if worker == 0 {
        for (line, expected) in boundary::requests() {
            let (request, got) = match Request::parse(line.as_bytes()) {
                Ok(request) => (Some(request.clone()), answer_text(Way::Fast, request)),
                Err(bad) => (None, bad.word().as_bytes().to_vec()),
            };
            shared.compare(line.as_bytes(), expected.as_bytes(), &got);
            if let Some(request) = request {
                table.count(&request, &got);
            }
            count += 1;
        }
    }
    for asked in requests(worker, options).take(share(options).saturating_sub(count)) {
        let fast = answer_text(Way::Fast, asked.request.clone());
        let mut line = Vec::new();
        asked.request.write(&mut line);
        shared.compare(&line, &answer_text(asked.way, asked.request.clone()), &fast);
        table.count(&asked.request, &fast);
    }
    table
}

fn run(options: &Options, shared: &Shared) -> Table {
    let start = Instant::now();
    std::thread::scope(|scope| {
        let workers: Vec<_> = (0..WORKERS)
            .map(|worker| {
                scope.spawn(move || match &options.probe {
                    Some(probe) => with_probe(worker, probe, options, shared),
                    None => with_itself(worker, options, shared),
                })
            })
            .collect();
        let mut next = Duration::from_secs(5);
        while !workers.iter().all(|worker| worker.is_finished()) {
            std::thread::sleep(Duration::from_millis(50));
            if start.elapsed() >= next {
                next += Duration::from_secs(5);
                let (passed, failed) = (shared.passed.load(Ordering::Relaxed), shared.failed.load(Ordering::Relaxed));
                println!("{:>4} s: {} of {} requests, {failed} differences", start.elapsed().as_secs(), passed + failed, options.requests);
            }
        }
        let mut table = Table::default();
        for worker in workers {
            table.join(worker.join().expect("a worker ends"));
        }
        table
    })
}

fn main() {
    let Some(options) = options() else {
        eprintln!("usage: compare PROBE|--self [--requests N] [--seed S]");
        std::process::exit(2);
    };
    let shared = Shared { passed: AtomicU64::new(0), failed: AtomicU64::new(0), shown: Mutex::new(Vec::new()) };
    let start = Instant::now();
    let table = run(&options, &shared);
    let (passed, failed) = (shared.passed.into_inner(), shared.failed.into_inner());
    let empty = table.print();
    println!("seed {}, {} boundary runs, {} requests in {} s", options.seed, boundary::requests().len(), passed + failed, start.elapsed().as_secs());
    println!("{failed} differences, {empty} answers that never came");
    for difference in shared.shown.into_inner().expect("no panic") {
        println!("{difference}");
    }
    println!("{passed} passed, {} failed", failed + empty);
    std::process::exit(i32::from(failed + empty > 0));
}
