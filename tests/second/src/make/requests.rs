//! Whole requests: a batch of them around one job, one part or one heap of bytes.

use super::{crowded, cuts, damage, edge, full, joined, like, middle, over, p1_connections, packed, reply, small, stacked, Rng};
use crate::fast::{self, Channel};
use crate::protocol::Way;
use crate::{slow, Job, Verdict};
use wire::Request;

/// A request, and which of the two routers is to answer it.
pub struct Asked {
    pub way: Way,
    pub request: Request,
}

/// A job to ask about, what the search says of it, and whether the definitions can be afforded.
struct Subject {
    job: Job,
    file: Vec<u8>,
    channel: Channel,
    verdict: Verdict,
    small: bool,
}

/// A job as it is made, or one time in three with its connections as pieces of nets.
fn perhaps_joined(rng: &mut Rng, make: impl FnOnce(&mut Rng) -> Job) -> Job {
    let job = make(rng);
    if rng.once_in(3) {
        joined(rng, job)
    } else {
        job
    }
}

/// A job that is small enough for the definitions.
pub fn enumerated(rng: &mut Rng) -> Job {
    if rng.once_in(5) {
        crowded(rng)
    } else {
        perhaps_joined(rng, small)
    }
}

/// A job that the search decides within a moment, or does not.
fn searched(rng: &mut Rng) -> Job {
    if rng.once_in(5) {
        packed(rng)
    } else {
        perhaps_joined(rng, middle)
    }
}

/// A largest job, or nearly.
fn largest(rng: &mut Rng) -> Job {
    let make = if rng.once_in(3) { stacked } else { full };
    perhaps_joined(rng, make)
}

/// The next batch. About half of all requests come from jobs small enough for the definitions, and more than half from jobs without nets.
pub fn batch(rng: &mut Rng) -> Vec<Asked> {
    let mut out = Vec::new();
    match rng.below(1000) {
        0..=599 => {
            let job = enumerated(rng);
            about(rng, &subject(job, true, 0), &mut out);
        }
        600..=729 => {
            let job = searched(rng);
            let cap = rng.pick(&[300, 3_000, 20_000]);
            about(rng, &subject(job, false, cap), &mut out);
        }
        730..=757 => {
            let job = largest(rng);
            let cap = rng.pick(&[1_000, 20_000, 20_000, 200_000]);
            about(rng, &subject(job, false, cap), &mut out);
        }
        758..=787 => {
            let job = perhaps_joined(rng, edge);
            about(rng, &subject(job, false, 10_000), &mut out);
        }
        788..=827 => {
            let file = perhaps_joined(rng, over).encode();
            files(rng, &file, &mut out);
        }
        828..=877 => cut_replies(rng, &mut out),
        878..=977 => part(rng, &mut out),
        978..=985 => programs(rng, &mut out),
        _ => {
            let length = rng.from_to(0, 60);
            let bytes = rng.bytes(length);
            files(rng, &bytes, &mut out);
        }
    }
    if rng.once_in(3_000) {
        huge(rng, &mut out);
    }
    out
}

fn subject(job: Job, small: bool, cap: u32) -> Subject {
    let channel = Channel::of(&job);
    let verdict = if small { slow::route_job(&job, u32::MAX) } else { fast::search(&channel, cap) };
    Subject { file: job.encode(), job, channel, verdict, small }
}

fn ask(out: &mut Vec<Asked>, way: Way, request: Request) {
    out.push(Asked { way, request });
}

/// The definitions for small jobs, and once in n times for others.
fn way(rng: &mut Rng, small: bool, n: usize) -> Way {
    if small || (n > 0 && rng.once_in(n)) {
        Way::Slow
    } else {
        Way::Fast
    }
}

/// A lent buffer where `asked` bytes are asked.
pub fn buffer(rng: &mut Rng, asked: usize) -> Vec<u8> {
    let length = match rng.below(20) {
        0 => asked.saturating_sub(1),
        1 => rng.from_to(0, asked),
        2..=6 => asked + rng.from_to(1, 9),
        _ => asked,
    };
    rng.bytes(length)
}

/// All entries, about one job.
fn about(rng: &mut Rng, subject: &Subject, out: &mut Vec<Asked>) {
    ask(out, way(rng, subject.small, 4), Request::Read { file: subject.file.clone() });
    for _ in 0..4 {
        route(rng, subject, out);
    }
    for _ in 0..4 {
        let labels = labels(rng, subject);
        ask(out, way(rng, subject.small, 4), Request::Judge { file: subject.file.clone(), labels });
    }
    for _ in 0..4 {
        line(rng, subject, out);
    }
    for _ in 0..6 {
        let text = self::text(rng, subject);
        let labels = buffer(rng, subject.job.connections.len());
        ask(out, way(rng, subject.small, 300), Request::Reply { file: subject.file.clone(), text, labels });
    }
    for _ in 0..2 {
        let file = damage(rng, &subject.file);
        damaged(rng, subject, file, out);
    }
}

/// Any budget where the need is known; else one that the search has the time for.
pub fn budget(rng: &mut Rng, verdict: &Verdict) -> u32 {
    let (trials, known) = match verdict {
        Verdict::Routed { trials, .. } | Verdict::Unroutable { trials } => (*trials as u32, true),
        Verdict::Undecided { trials } => (*trials as u32, false),
    };
    match rng.below(8) {
        0 => 0,
        1 => trials.saturating_sub(1),
        2 => rng.below(trials as usize + 1) as u32,
        3 if known => trials + 1,
        4 if known => u32::MAX,
        5 if known => trials.wrapping_add(256).max(trials),
        _ => trials,
    }
}

fn route(rng: &mut Rng, subject: &Subject, out: &mut Vec<Asked>) {
    let budget = budget(rng, &subject.verdict);
    let labels = buffer(rng, subject.job.connections.len());
    ask(out, way(rng, subject.small, 0), Request::Route { file: subject.file.clone(), budget, labels });
}

/// Labels of a routing: legal ones, nearly legal ones, and any.
fn labels(rng: &mut Rng, subject: &Subject) -> Vec<u8> {
    let (count, tracks) = (subject.job.connections.len(), subject.job.tracks.len());
    let mut labels: Vec<u8> = match &subject.verdict {
        Verdict::Routed { labels, .. } if !rng.once_in(4) => labels.clone(),
        _ => (0..count).map(|_| rng.from_to(1, tracks) as u8).collect(),
    };
    if subject.small && rng.once_in(3) {
        let all = slow::routings(&subject.job);
        if !all.is_empty() {
            labels = all[rng.below(all.len())].iter().map(|&t| t as u8).collect();
        }
    }
    match rng.below(9) {
        0 => labels.push(rng.from_to(0, tracks + 1) as u8),
        1 => drop(labels.pop()),
        2 | 3 if count > 0 => labels[rng.below(count)] = rng.from_to(1, tracks) as u8,
        4 if count > 0 => labels[rng.below(count)] = rng.pick(&[0, tracks as u8 + 1, 37, 255]),
        5 if count > 0 => labels[rng.below(count)] = labels[rng.below(count)],
        _ => {}
    }
    labels
}

/// Codes for a reply: those of labels as above, or any of the width.
fn codes(rng: &mut Rng, subject: &Subject) -> Vec<usize> {
    let (count, all) = (subject.job.connections.len(), 1 << subject.channel.width());
    let mut codes: Vec<usize> = match &subject.verdict {
        Verdict::Routed { labels, .. } if !rng.once_in(5) => labels.iter().map(|&t| usize::from(t) - 1).collect(),
        _ => (0..count).map(|_| rng.below(subject.job.tracks.len())).collect(),
    };
    if count > 0 {
        match rng.below(7) {
            0 => codes[rng.below(count)] = rng.below(all),
            1 => codes[rng.below(count)] = all - 1,
            2 => codes[rng.below(count)] = codes[rng.below(count)],
            _ => {}
        }
    }
    codes
}

/// A reply to the job.
fn text(rng: &mut Rng, subject: &Subject) -> Vec<u8> {
    let codes = codes(rng, subject);
    reply(rng, &codes, subject.channel.width())
}

fn line(rng: &mut Rng, subject: &Subject, out: &mut Vec<Asked>) {
    let clauses = fast::count(&subject.channel) as u64;
    let number = match rng.below(12) {
        0 => 0,
        1 => 1,
        2 => clauses,
        3 => clauses + 1,
        4 => clauses.saturating_sub(1),
        5 => rng.pick(&[u64::MAX, 1 << 32, (1 << 32) + 1, 1 << 63, 1 << 16, 1 << 31]),
        6 => (1 << 32) + rng.below(clauses as usize + 1) as u64,
        _ => rng.below(clauses as usize + 1) as u64,
    };
    let buffer = buffer(rng, 62);
    ask(out, way(rng, subject.small, 300), Request::Line { file: subject.file.clone(), number, buffer });
}

/// All entries that take a file, about a file that may be none.
fn damaged(rng: &mut Rng, subject: &Subject, file: Vec<u8>, out: &mut Vec<Asked>) {
    let way = if subject.small && small_still(&file) { Way::Slow } else { Way::Fast };
    let count = subject.job.connections.len();
    ask(out, way, Request::Read { file: file.clone() });
    let labels = buffer(rng, count);
    ask(out, way, Request::Route { file: file.clone(), budget: budget(rng, &subject.verdict).min(20_000), labels });
    ask(out, way, Request::Judge { file: file.clone(), labels: self::labels(rng, subject) });
    let buffer62 = buffer(rng, 62);
    ask(out, way, Request::Line { file: file.clone(), number: rng.below(5) as u64, buffer: buffer62 });
    let text = self::text(rng, subject);
    let labels = buffer(rng, count);
    ask(out, way, Request::Reply { file, text, labels });
}

/// Whether what its trailer says leaves few enough sequences to enumerate.
fn small_still(file: &[u8]) -> bool {
    file.len() < 8 || usize::from(file[file.len() - 3]).checked_pow(u32::from(file[file.len() - 2])).is_some_and(|n| n <= 1000)
}

/// All entries that take a file, about any bytes.
fn files(rng: &mut Rng, file: &[u8], out: &mut Vec<Asked>) {
    let file = match rng.below(4) {
        0 => damage(rng, file),
        _ => file.to_vec(),
    };
    let labels = rng.bytes(65);
    ask(out, Way::Slow, Request::Read { file: file.clone() });
    ask(out, Way::Fast, Request::Route { file: file.clone(), budget: 1000, labels: labels.clone() });
    ask(out, Way::Fast, Request::Judge { file: file.clone(), labels: labels.clone() });
    ask(out, Way::Fast, Request::Line { file: file.clone(), number: 1, buffer: labels.clone() });
    ask(out, Way::Fast, Request::Reply { file, text: b"s UNKNOWN\n".to_vec(), labels });
}

/// A reply cut at every byte.
fn cut_replies(rng: &mut Rng, out: &mut Vec<Asked>) {
    let job = enumerated(rng);
    let subject = subject(job, true, 0);
    let text = self::text(rng, &subject);
    let labels = buffer(rng, subject.job.connections.len());
    for cut in cuts(&text) {
        ask(out, Way::Slow, Request::Reply { file: subject.file.clone(), text: cut.to_vec(), labels: labels.clone() });
    }
}

/// The P1 writer and the editor's entry.
fn part(rng: &mut Rng, out: &mut Vec<Asked>) {
    let mut connections = p1_connections(rng);
    match rng.below(8) {
        0 => connections = damage(rng, &connections),
        1 => {
            let length = rng.pick(&[195, 255, 258, 768, 771, 192, 196]);
            connections = connections.iter().copied().cycle().take(if connections.is_empty() { 0 } else { length }).collect();
        }
        2 if !connections.is_empty() => {
            let at = rng.below(connections.len());
            connections[at] = rng.pick(&[0, 1, 2, 29, 30, 31, 255]);
        }
        _ => {}
    }
    let limit = match rng.below(10) {
        0 => rng.pick(&[0, 33, 256, 257, 65_537, u32::MAX, 1 << 31]),
        1 => 32,
        _ => rng.from_to(1, 6) as u32,
    };
    for _ in 0..2 {
        let buffer = buffer(rng, 58 + connections.len());
        ask(out, Way::Slow, Request::P1 { connections: connections.clone(), limit, buffer });
    }
    connections.truncate(connections.len() / 3 * 3);
    let records = connections.len() / 3;
    let verdict = match slow::p1(&connections, limit, usize::MAX).and_then(|file| fast::read(&file)) {
        Ok(job) => fast::search(&Channel::of(&job), rng.pick(&[200, 3_000, 30_000])),
        Err(_) => Verdict::Undecided { trials: 9 },
    };
    for _ in 0..4 {
        let labels = buffer(rng, records);
        let budget = budget(rng, &verdict);
        let way = if records <= 3 || records > 64 { Way::Slow } else { Way::Fast };
        ask(out, way, Request::P1Route { connections: connections.clone(), limit, budget, labels });
    }
}

/// The routing program.
fn programs(rng: &mut Rng, out: &mut Vec<Asked>) {
    let (job, way) = match rng.below(5) {
        0 | 1 => (enumerated(rng), Way::Slow),
        2 => (searched(rng), Way::Fast),
        3 => (largest(rng), Way::Fast),
        _ => {
            let job = if rng.once_in(2) { middle(rng) } else { full(rng) };
            (joined(rng, job), Way::Fast)
        }
    };
    let file = job.encode();
    ask(out, way, Request::Program { input: file.clone() });
    ask(out, Way::Fast, Request::Program { input: damage(rng, &file) });
    let tight = perhaps_joined(rng, |rng| like(rng, &job, 2 + job.tracks.len() / 4, 3)).encode();
    ask(out, Way::Fast, Request::Program { input: tight });
    if rng.once_in(3) {
        let length = rng.pick(&[4_095, 4_096, 4_097, 4_100, 5_000]);
        ask(out, Way::Fast, Request::Program { input: padded(&file, length) });
    }
}

/// A file with bytes put between its tracks and its connections, distances right where they can be.
fn padded(file: &[u8], length: usize) -> Vec<u8> {
    let (trailer, connections) = (file.len() - 8, 3 * usize::from(file[file.len() - 2]));
    let mut out = file[..trailer - connections].to_vec();
    out.resize(length - 8 - connections, 1);
    out.extend_from_slice(&file[trailer - connections..]);
    let back = (length - 8) as u16;
    out[length - 8..length - 6].copy_from_slice(&back.to_le_bytes());
    out
}

/// Files whose distances do not fit two bytes.
fn huge(rng: &mut Rng, out: &mut Vec<Asked>) {
    let file = small(rng).encode();
    let length = rng.pick(&[65_535 + 8, 65_536 + 8, 65_536 + file.len()]);
    let file = padded(&file, length);
    files(rng, &file, out);
}
