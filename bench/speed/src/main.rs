//! Times the library's entries. The search is timed beside two routers in safe Rust: the twin, which has the library's algorithm (a table made once a
//! call), and the plain one that a user would write (it walks the segments at each trial). Five times each in turn, the best of each; then the clause
//! lines of a largest channel, replies, short and long, and edits of a full panel, beside a twin and two recounts. What a call does before its first trial is
//! timed by a call with the budget 0 and is not in the time of a trial. `ratio` is to the twin, `plain` to the plain one; where a call has too few trials to
//! time them, whole calls are printed and no ratio.

mod edits;
mod jobs;
mod panel;
mod twin;

use jobs::Timed;
use second::fast::Channel;
use second::make::spelled;
use silienvo::Verdict;
use std::hint::black_box;
use std::time::Instant;

const ROUNDS: usize = 5;

/// With fewer trials, the time of the trials is the difference of two times that are nearly equal.
const TRIALS: u64 = 100;

/// Seconds that one call takes: as many calls as make some 50 ms, or one.
fn seconds(calls: u32, mut call: impl FnMut()) -> f64 {
    let start = Instant::now();
    for _ in 0..calls {
        call();
    }
    start.elapsed().as_secs_f64() / f64::from(calls)
}

fn calls(mut call: impl FnMut()) -> u32 {
    let once = seconds(1, &mut call).max(1e-8);
    (0.05 / once).clamp(1.0, 5e6) as u32
}

fn words(verdict: Verdict) -> (&'static str, u64) {
    match verdict {
        Verdict::Routed(trials) => ("routed", trials),
        Verdict::Unroutable(trials) => ("unroutable", trials),
        Verdict::Undecided(trials) => ("undecided", trials),
    }
}

fn twin_words(verdict: twin::Verdict) -> (&'static str, u64) {
    match verdict {
        twin::Verdict::Routed(trials) => ("routed", trials),
        twin::Verdict::Unroutable(trials) => ("unroutable", trials),
        twin::Verdict::Undecided(trials) => ("undecided", trials),
    }
}

/// Seconds of a call under a budget: the library, the twin and the plain one, in turn; the best of each.
fn best(job: &Timed, budget: u32) -> [f64; 3] {
    let (mut a, mut b, mut c) = ([0; 64], [0; 64], [0; 64]);
    let mut library = || _ = black_box(silienvo::route(black_box(&job.file), budget, &mut a));
    let mut twin = || _ = black_box(twin::twin(black_box(&job.file), budget, &mut b));
    let mut plain = || _ = black_box(twin::plain(black_box(&job.file), budget, &mut c));
    let n = calls(&mut library);
    let mut best = [f64::MAX; 3];
    for _ in 0..ROUNDS {
        best[0] = best[0].min(seconds(n, &mut library));
        best[1] = best[1].min(seconds(n, &mut twin));
        best[2] = best[2].min(seconds(n, &mut plain));
    }
    best
}

/// The three give the same verdict, trials and labels, all as known.
fn agree(job: &Timed) {
    let (mut a, mut b, mut c) = ([0; 64], [0; 64], [0; 64]);
    assert_eq!(words(silienvo::route(&job.file, job.budget, &mut a).expect("a job")), job.known, "{}", job.name);
    assert_eq!(twin_words(twin::twin(&job.file, job.budget, &mut b).expect("a job")), job.known, "{}", job.name);
    assert_eq!(twin_words(twin::plain(&job.file, job.budget, &mut c).expect("a job")), job.known, "{}", job.name);
    assert_eq!((a, a), (b, c), "{}", job.name);
}

fn search(job: &Timed) {
    agree(job);
    let (word, trials) = job.known;
    let before = best(job, 0);
    let whole = best(job, job.budget);
    println!("{:<20} {word:<10} {trials:>9} trials             library        twin         plain", job.name);
    row("us before the first trial", before.map(|seconds| seconds * 1e6));
    if trials < TRIALS {
        return row("us a whole call", whole.map(|seconds| seconds * 1e6));
    }
    let trial = [0, 1, 2].map(|i| (whole[i] - before[i]) * 1e9 / trials as f64);
    row("ns a trial", trial);
    println!("{} ratio {:.2}", job.name, trial[0] / trial[1]);
    println!("{} plain {:.2}", job.name, trial[0] / trial[2]);
}

fn row(what: &str, [library, twin, plain]: [f64; 3]) {
    println!("{:<20} {what:<30} {library:>15.2} {twin:>11.2} {plain:>13.2}", "");
}

fn lines(file: &[u8]) {
    let mut buffer = [0; 62];
    let length = silienvo::line(file, 0, &mut buffer).expect("line 0") as usize;
    let head = String::from_utf8_lossy(&buffer[..length]).into_owned();
    let count: u64 = head.trim_end().split(' ').nth(3).and_then(|c| c.parse().ok()).expect("C");
    let start = Instant::now();
    let mut bytes = 0;
    for number in 0..=count {
        bytes += silienvo::line(file, number, &mut buffer).expect("a line");
    }
    let seconds = start.elapsed().as_secs_f64();
    println!("clause lines: {} lines, {bytes} bytes in {seconds:.2} s, {:.0} lines a second", count + 1, (count + 1) as f64 / seconds);
}

fn reply(name: &str, file: &[u8], text: &[u8], connections: usize) {
    let mut labels = vec![0; connections];
    assert_eq!(silienvo::reply(file, text, &mut labels), Ok(silienvo::Replied::Accepted), "{name}");
    let mut call = || _ = black_box(silienvo::reply(black_box(file), black_box(text), &mut labels));
    let n = calls(&mut call);
    let best = (0..ROUNDS).map(|_| seconds(n, &mut call)).fold(f64::MAX, f64::min);
    println!("{name}: {} bytes, {:.0} replies a second, {:.1} MB a second", text.len(), 1.0 / best, text.len() as f64 / best / 1e6);
}

fn replies(file: &[u8]) {
    let job_a = &jobs::jobs()[0].file;
    reply("reply to job A", job_a, b"s SATISFIABLE\nv -1 2 -3 0\n", 3);
    let mut labels = [0; 64];
    silienvo::route(file, u32::MAX, &mut labels).expect("a routing");
    let codes: Vec<usize> = labels.iter().map(|&label| usize::from(label) - 1).collect();
    let width = Channel::of(&second::fast::read(file).expect("a job")).width();
    let values: String = spelled(&codes, width).iter().map(|literal| format!("v {literal}\n")).collect();
    let text = format!("s SATISFIABLE\n{values}v 0\n");
    reply("reply to a largest channel", file, text.as_bytes(), 64);
    let remarks = "c a remark as solvers write them, a line of some seventy bytes in all.\n".repeat(60_000);
    reply("the same after remarks", file, format!("{remarks}{text}").as_bytes(), 64);
}

fn main() {
    println!("Lent buffers are lent again as the call before left them: nothing is cleared, inside the time or outside.");
    println!("A call reads and checks its file, then routes: all three. Best of {ROUNDS}, in turn.");
    println!(
        "`ratio`: a trial of the library by one of the twin, the same algorithm in safe Rust; `plain`: by one of a router that walks the segments."
    );
    for job in jobs::jobs() {
        search(&job);
    }
    lines(&jobs::most_clauses());
    replies(&jobs::full_routable());
    edits::run();
}
