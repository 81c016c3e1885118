//! Kinds of answers: every verdict, and every row of the table of replies, told apart where a row holds for more than one reason, and by nets.

mod edits;

pub use edits::of_a_sequence;

use crate::fast::{self, Channel, Kept};
use crate::panel::Panel;
use crate::Job;
use wire::{Op, Request, PANEL};

/// Kinds that the rule about nets has a part in.
const BY_NETS: [&str; 9] =
    ["routed", "unroutable", "undecided", "legal", "line", "accepted", "refused 8, group 3", "refused 10", "refused 11, collides"];

/// The kinds that an answer is counted by: its own, or those of the operations on a panel, some for each.
pub fn kinds(request: &Request, answer: &[u8]) -> Vec<String> {
    edits::kinds(request, &String::from_utf8_lossy(answer)).unwrap_or_else(|| vec![kind(request, answer)])
}

/// The kind of an answer: its word, or `refused`, the number, and what the number leaves open; then what its job has of nets.
pub fn kind(request: &Request, answer: &[u8]) -> String {
    let text = match request {
        Request::Program { .. } => wire::bytes(answer).unwrap_or_default(),
        _ => answer.to_vec(),
    };
    let text = String::from_utf8_lossy(&text);
    let kind = plain_kind(request, &text);
    if BY_NETS.contains(&kind.as_str()) {
        return kind + nets(request, &text).unwrap_or("");
    }
    kind
}

fn plain_kind(request: &Request, text: &str) -> String {
    let words: Vec<&str> = text.lines().next().unwrap_or("").split(' ').collect();
    if words[0] != "refused" || words.len() < 3 {
        return words[0].to_string();
    }
    let place = words[2].parse().unwrap_or(u64::MAX);
    match detail(request, words[1], place) {
        Some(detail) => format!("refused {}, {detail}", words[1]),
        None => format!("refused {}", words[1]),
    }
}

/// Whether a net above 0 occurs twice in the job, and whether the routing that is answered, or found legal, is one by nets alone: two pieces share a segment.
fn nets(request: &Request, text: &str) -> Option<&'static str> {
    let job = job(request)?;
    let mut seen = [false; 128];
    if !job.connections.iter().any(|c| c.net() > 0 && std::mem::replace(&mut seen[usize::from(c.net())], true)) {
        return None;
    }
    let labels = labels(request, text).unwrap_or_default();
    Some(if shared(&Channel::of(&job), &labels) { ", by nets alone" } else { ", nets" })
}

/// The job that a request is about.
fn job(request: &Request) -> Option<Job> {
    match request {
        Request::P1Route { connections, limit, .. } => fast::read(&fast::p1(connections, *limit, usize::MAX).ok()?).ok(),
        Request::PanelRoute { panel, ops, limit, .. } => {
            let connections: Vec<u8> = edited(panel, ops).list.iter().flat_map(|c| [c.left, c.right, c.mark]).collect();
            fast::read(&fast::p1(&connections, *limit, usize::MAX).ok()?).ok()
        }
        _ => fast::read(file(request)?).ok(),
    }
}

/// A panel after operations.
fn edited(panel: &[u8; PANEL], ops: &[Op]) -> Kept {
    let mut kept = Kept::of(Panel::of(panel));
    for &op in ops {
        let _ = kept.operate(op);
    }
    kept
}

/// The labels of a legal routing, where the answer has one.
fn labels(request: &Request, text: &str) -> Option<Vec<u8>> {
    let (first, rest) = text.split_once('\n').unwrap_or((text, ""));
    match (first.split(' ').collect::<Vec<_>>()[..].as_ref(), request) {
        (["legal"], Request::Judge { labels, .. }) => Some(labels.clone()),
        (["routed", _], _) => rest.lines().map(|row| row.split(' ').nth(1)?.parse().ok()).collect(),
        (["routed", _, labels] | ["accepted", labels], _) => wire::bytes(labels.as_bytes()),
        _ => None,
    }
}

/// Whether two connections share a segment, by the labels in front.
fn shared(channel: &Channel, labels: &[u8]) -> bool {
    let on = |m: usize| usize::from(labels[m]) - 1;
    let count = channel.connections.min(labels.len());
    (0..count).any(|m| (0..m).any(|n| on(m) == on(n) && channel.mask(m, on(m)) & channel.mask(n, on(n)) != 0))
}

fn detail(request: &Request, number: &str, place: u64) -> Option<&'static str> {
    match (number, request) {
        ("2", Request::PanelRoute { panel, ops, .. }) => {
            let Panel { columns, tracks, .. } = edited(panel, ops).panel;
            ((columns, tracks) != (30, 8)).then_some("another part")
        }
        ("3", Request::Program { input }) if input.len() > 4096 => Some("over 4096"),
        ("4", _) => {
            let file = file(request)?;
            Some(if place == u64::from(file[file.len() - 3]) + 1 { "left over" } else { "a track" })
        }
        ("6", _) => Some(if place == 0 { "the rules" } else { "a line" }),
        ("7", Request::Reply { text, .. }) => Some(if place == literals(text) { "missing" } else { "a literal" }),
        ("8", _) => {
            let channel = Channel::of(&fast::read(file(request)?).ok()?);
            let first = channel.connections * ((1 << channel.width()) - channel.tracks);
            let barred = (0..channel.connections).map(|m| channel.masks(m).iter().filter(|&&mask| mask == 0).count()).sum::<usize>();
            Some(match place as usize {
                n if n <= first => "group 1",
                n if n <= first + barred => "group 2",
                _ => "group 3",
            })
        }
        ("11", _) if place == 0 => Some("not M"),
        ("11", Request::Judge { file, labels }) => {
            let job = fast::read(file).ok()?;
            let (m, label) = (place as usize - 1, usize::from(*labels.get(place as usize - 1)?));
            let outside = label == 0 || label > job.tracks.len() || Channel::of(&job).mask(m, label - 1) == 0;
            Some(if outside { "a label" } else { "collides" })
        }
        _ => None,
    }
}

fn file(request: &Request) -> Option<&[u8]> {
    match request {
        Request::Read { file }
        | Request::Route { file, .. }
        | Request::Judge { file, .. }
        | Request::Line { file, .. }
        | Request::Reply { file, .. } => Some(file),
        Request::Program { input } => Some(input),
        _ => None,
    }
}

/// Words of all `v` lines together, `0` included.
fn literals(text: &[u8]) -> u64 {
    text.split(|&b| b == b'\n').filter(|line| line.starts_with(b"v ")).map(|line| line.iter().filter(|&&b| b == b' ').count() as u64).sum()
}
