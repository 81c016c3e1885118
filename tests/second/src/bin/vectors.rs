//! Writes vectors made by the second router: `vectors FOLDER`. A folder gets one file an entry: read, route, judge, line, reply, p1, p1route;
//! and one, panel, for all entries of a panel: a record is one call, on the panel that the calls before it in its request leave.
//! One file more, wrong, has records with one expected byte changed, and at its end one that is cut: nothing in it may agree.
//!
//! A file is records one after another to its end. A record is a head of 23 bytes, then its four strings of bytes one behind the other.
//! Numbers are low byte first. An end is counted from the start of the record, so that the end of the last string is the record's size.
//!
//! | at | bytes | holds                                                                                                            |
//! |---:|------:|------------------------------------------------------------------------------------------------------------------|
//! |  0 |     1 | the entry: 1 read, 2 route, 3 judge, 4 line, 5 reply, 6 p1, 7 p1route; of a panel 8 make, 9 clear, 10 add,       |
//! |    |       | 11 drop, 12 move, 13 red, 14 route on P1                                                                         |
//! |  1 |     1 | the kind: 0 refused; otherwise the place of the answer in its list: every route routed, unroutable, undecided;   |
//! |    |       | reply accepted, claimed, unknown; red green, red; 1 for the one answer of each other entry                       |
//! |  2 |     1 | the number of the refusal; otherwise 0                                                                           |
//! |  3 |     4 | the value: the place of a refusal, the trials, the length written, the red column, N, T, M and K of a job in a   |
//! |    |       | byte each; or 0                                                                                                  |
//! |  7 |     4 | the budget of route, the line number, the K of p1, p1route and a panel's route; otherwise 0                      |
//! | 11 |     4 | the budget of p1route and a panel's route; otherwise 0                                                           |
//! | 15 |     2 | the end of the first string: the job file; for p1 and p1route the connection bytes; the panel that red and route |
//! |    |       | read; otherwise empty                                                                                            |
//! | 17 |     2 | the end of the second: the labels that judge is brought, the text of a reply; for make, add, drop and move their |
//! |    |       | numbers in the order of the header, eight bytes each, a mark one; otherwise empty                                |
//! | 19 |     2 | the end of the third: the lent buffer before the call, a panel that is changed; empty where none is lent         |
//! | 21 |     2 | the end of the fourth: the lent buffer after the call; for a job the part of the file that holds the connections |
//!
//! Every row of the table of replies and every verdict is there, in each entry that can give it, with nets and without, and each limit on both sides.

use second::boundary;
use second::calls::{calls, part, shows, shows_sign};
use second::kind::kind;
use second::make::{batch, edits, Rng};
use second::protocol::{answer, Way};
use std::collections::BTreeMap;
use std::ops::Range;
use std::path::Path;
use wire::{Answer, Edited, Op, Request};

/// Records of one kind of answer in one entry.
const EACH: usize = 5;
/// The same for jobs at a limit.
const EACH_AT_A_LIMIT: usize = 1;
/// The same for a panel, whose records are long. Those that show several kinds are taken first.
const EACH_OF_A_PANEL: usize = 1;
/// The file of a panel's entries.
const PANEL: &str = "panel";
/// What marks a boundary run.
const BOUNDARY: &str = ", a boundary run";
/// The bytes of a record before its strings.
const HEAD: usize = 23;
/// The most bytes of a file: what a small reader can hold.
const MOST: usize = 60_000;

fn main() -> std::io::Result<()> {
    let Some(folder) = std::env::args().nth(1) else {
        eprintln!("usage: vectors FOLDER");
        std::process::exit(2);
    };
    let mut chosen = Chosen::default();
    let vectors: Vec<_> = requests().iter().flat_map(|(size, request)| vectors(request).into_iter().map(move |vector| (vector, *size))).collect();
    for least in [3, 2, 1] {
        for (vector, size) in &vectors {
            chosen.take(vector, size, least);
        }
    }
    let Chosen { mut files, had, shortest, records } = chosen;
    files.insert("wrong", shortest.values().flat_map(|record| wrong(record)).chain(cut(&shortest[&("route", 2)])).collect());
    std::fs::create_dir_all(&folder)?;
    for (name, bytes) in &files {
        std::fs::write(Path::new(&folder).join(name), bytes)?;
        println!("{name:<8} {:>6} bytes", bytes.len());
    }
    for ((name, row), n) in &had {
        println!("{name:<8} {row:<40} {n:>3}");
    }
    println!("{records} vectors");
    let missing = had.values().filter(|&&n| n == 0).count();
    if missing > 0 {
        eprintln!("{missing} kinds of answers did not fit their file");
        std::process::exit(1);
    }
    Ok(())
}

/// The files so far by name, how often each shows each kind of answer, and of each entry the record that is best changed.
#[derive(Default)]
struct Chosen {
    files: BTreeMap<&'static str, Vec<u8>>,
    had: BTreeMap<(&'static str, String), usize>,
    shortest: BTreeMap<(&'static str, u8), Vec<u8>>,
    records: usize,
}

impl Chosen {
    /// Takes a vector if it shows so many kinds that its file does not show often enough, and there is room for it.
    fn take(&mut self, Vector { name, shows, record }: &Vector, size: &str, least: usize) {
        let file = self.files.entry(name).or_default();
        let rows: Vec<_> = shows.iter().map(|shown| (*name, shown.clone() + size)).collect();
        let most = most(name, size);
        let more = rows.iter().filter(|row| *self.had.entry((*row).clone()).or_default() < most).count();
        if more < least || file.len() + record.len() > MOST {
            return;
        }
        for row in rows {
            *self.had.entry(row).or_default() += 1;
        }
        self.records += 1;
        file.extend(record);
        let shortest = self.shortest.entry((name, record[0])).or_insert_with(|| record.clone());
        if better(record, shortest) {
            *shortest = record.clone();
        }
    }
}

/// How many records of what is shown a file takes: of boundary runs all, but for a panel.
fn most(name: &str, size: &str) -> usize {
    match size {
        _ if name == PANEL => EACH_OF_A_PANEL,
        BOUNDARY => usize::MAX,
        "" => EACH,
        _ => EACH_AT_A_LIMIT,
    }
}

/// Requests to choose from, each with the limit that it meets, if any: the boundary runs, then others from a seed, small ones first, so that large ones do
/// not fill the files, then those about panels from another seed. Each about a panel is taken apart into its calls.
fn requests() -> Vec<(&'static str, Request)> {
    let runs = boundary::requests().into_iter().filter_map(|(line, _)| Request::parse(line.as_bytes()).ok());
    let mut rng = Rng::new(7);
    let mut others: Vec<Request> = (0..4_000).flat_map(|_| batch(&mut rng)).map(|asked| asked.request).collect();
    others.sort_by_cached_key(|request| question(request).map_or(usize::MAX, |question| question.size() / 400));
    let others = others.into_iter().map(|request| (limit(&request), request));
    let mut rng = Rng::new(8);
    let panels = (0..4_000).flat_map(|_| edits(&mut rng)).map(|asked| asked.request).filter(on_a_panel);
    let panels = panels.flat_map(calls).map(|request| ("", request));
    let runs = runs.flat_map(calls).map(|request| (if on_a_panel(&request) { "" } else { BOUNDARY }, request));
    runs.chain(others).chain(panels).collect()
}

fn on_a_panel(request: &Request) -> bool {
    matches!(request, Request::Edit { .. } | Request::Panel { .. } | Request::PanelRoute { .. })
}

/// The size of the job that stands at a limit, in words; the first that does.
fn limit(request: &Request) -> &'static str {
    let (Request::Read { file }
    | Request::Route { file, .. }
    | Request::Judge { file, .. }
    | Request::Line { file, .. }
    | Request::Reply { file, .. }) = request
    else {
        return "";
    };
    let Some(&[.., t, m, k]) = file.last_chunk::<8>() else { return "" };
    let g = second::fast::read(file).map_or(0, |job| job.tracks.iter().map(|track| track.ends.len()).max().unwrap_or(0));
    match (t, m, k, g) {
        (36, ..) => ", T 36",
        (37, ..) => ", T 37",
        (_, 64, ..) => ", M 64",
        (_, 65, ..) => ", M 65",
        (.., 32, _) => ", K 32",
        (.., 33, _) => ", K 33",
        (.., 32) => ", g 32",
        _ if file[0] == 33 => ", g 33",
        _ => "",
    }
}

/// A vector: the file that it is for, the kinds of answers that it shows, and its record.
struct Vector {
    name: &'static str,
    shows: Vec<String>,
    record: Vec<u8>,
}

impl Vector {
    fn new(name: &'static str, shows: Vec<String>, question: &Question, expected: &Expected) -> Option<Vector> {
        Some(Vector { name, shows, record: record(question, expected)? })
    }
}

/// The vectors of a call; for an operation that is done there is one more, the sign of the panel that it leaves.
fn vectors(request: &Request) -> Vec<Vector> {
    let Some(question) = question(request) else { return vec![] };
    let said = answer(Way::Fast, request.clone());
    let expected = expected(&question, &said);
    let mut line = Vec::new();
    said.write(&mut line);
    let kind = || kind(request, line.trim_ascii_end());
    let (name, shows) = match request {
        Request::Panel { panel, ops } => (PANEL, shows(panel, ops[0], &said)),
        Request::PanelRoute { panel, .. } => (PANEL, vec![format!("route, {}{}", kind(), part(panel))]),
        _ => (request.op(), vec![kind()]),
    };
    Vector::new(name, shows, &question, &expected).into_iter().chain(sign(&said)).collect()
}

/// What is asked: the entry, its two numbers, and the first three strings.
struct Question {
    entry: u8,
    number: u64,
    budget: u64,
    strings: [Vec<u8>; 3],
}

impl Question {
    fn size(&self) -> usize {
        self.strings.iter().map(|string| string.len()).sum()
    }
}

/// The question of a call; the program has none, nor has more than one call.
fn question(request: &Request) -> Option<Question> {
    let numbers;
    let (entry, number, budget, strings): (u8, u64, u32, [&[u8]; 3]) = match request {
        Request::Read { file } => (1, 0, 0, [file, &[], &[]]),
        Request::Route { file, budget, labels } => (2, u64::from(*budget), 0, [file, &[], labels]),
        Request::Judge { file, labels } => (3, 0, 0, [file, labels, &[]]),
        Request::Line { file, number, buffer } => (4, *number, 0, [file, &[], buffer]),
        Request::Reply { file, text, labels } => (5, 0, 0, [file, text, labels]),
        Request::P1 { connections, limit, buffer } => (6, u64::from(*limit), 0, [connections, &[], buffer]),
        Request::P1Route { connections, limit, budget, labels } => (7, u64::from(*limit), *budget, [connections, &[], labels]),
        Request::Panel { panel, ops } => {
            let [op] = ops[..] else { return None };
            let entry;
            (entry, numbers) = operation(op);
            (entry, 0, 0, [&[], &numbers, &panel[..]])
        }
        Request::PanelRoute { panel, ops, limit, budget, labels } if ops.is_empty() => (14, u64::from(*limit), *budget, [&panel[..], &[], labels]),
        Request::Program { .. } | Request::Edit { .. } | Request::PanelRoute { .. } => return None,
    };
    Some(Question { entry, number, budget: u64::from(budget), strings: strings.map(<[u8]>::to_vec) })
}

/// The entry of an operation and the bytes of its numbers.
fn operation(op: Op) -> (u8, Vec<u8>) {
    let bytes = |numbers: &[u64]| numbers.iter().flat_map(|number| number.to_le_bytes()).collect::<Vec<u8>>();
    match op {
        Op::Make { columns, tracks } => (8, bytes(&[columns, tracks])),
        Op::Clear => (9, vec![]),
        Op::Add { left, right, mark } => (10, [bytes(&[left, right]), vec![mark]].concat()),
        Op::Drop { number } => (11, bytes(&[number])),
        Op::Move { number, left, right } => (12, bytes(&[number, left, right])),
    }
}

/// What is expected: kind, refusal, value and the fourth string.
type Expected = (u8, u8, u64, Vec<u8>);

fn expected(question: &Question, answer: &Answer) -> Expected {
    let kind = match answer.word {
        "refused" => 0,
        "unroutable" | "claimed" => 2,
        "undecided" | "unknown" => 3,
        _ => 1,
    };
    let after = answer.buffer.clone().unwrap_or_default();
    if let Some([Edited::Refused { number, place }]) = answer.edited.as_deref() {
        return (0, *number as u8, *place, after);
    }
    match (answer.word, &answer.numbers[..]) {
        ("refused", &[refusal, place]) => (kind, refusal as u8, place, after),
        ("job", &[n, t, m, k, start, length]) => {
            let [start, length] = [start as usize, length as usize];
            (kind, 0, n + (t << 8) + (m << 16) + (k << 24), question.strings[0][start..start + length].to_vec())
        }
        (_, numbers) => (kind, 0, numbers.first().copied().unwrap_or_default(), after),
    }
}

/// The sign of the panel that an operation leaves.
fn sign(answer: &Answer) -> Option<Vector> {
    let (Some([Edited::Done { red, .. }]), Some(panel)) = (answer.edited.as_deref(), &answer.buffer) else { return None };
    let question = Question { entry: 13, number: 0, budget: 0, strings: [panel.clone(), vec![], vec![]] };
    let shown = shows_sign(panel[..].try_into().ok()?, *red);
    Vector::new(PANEL, vec![shown], &question, &(1 + u8::from(*red > 0), 0, *red, vec![]))
}

/// A record; nothing where a field does not hold its value.
fn record(question: &Question, (kind, refusal, value, after): &Expected) -> Option<Vec<u8>> {
    let mut record = vec![question.entry, *kind, *refusal];
    for number in [*value, question.number, question.budget] {
        record.extend(u32::try_from(number).ok()?.to_le_bytes());
    }
    let [first, second, before] = &question.strings;
    let strings = [first, second, before, after];
    let mut end = HEAD;
    for string in strings {
        end += string.len();
        record.extend(u16::try_from(end).ok()?.to_le_bytes());
    }
    strings.iter().for_each(|string| record.extend(*string));
    Some(record)
}

/// The fourth string of a record.
fn after(record: &[u8]) -> Range<usize> {
    usize::from(u16::from_le_bytes([record[19], record[20]]))..record.len()
}

/// Whether a record shows more than another when it is changed: an answer rather than a refusal, with a fourth string, and few bytes.
fn better(record: &[u8], other: &[u8]) -> bool {
    let key = |record: &[u8]| (record[1] != 1, after(record).is_empty(), record.len());
    key(record) < key(other)
}

/// The record with one expected byte changed, for each byte of kind, refusal and value, and the first and the last of the fourth string.
fn wrong(record: &[u8]) -> Vec<u8> {
    let after = after(record);
    let ends = if after.is_empty() { vec![] } else { vec![after.start, after.end - 1] };
    let changed = |at: usize| {
        let mut record = record.to_vec();
        record[at] ^= 1;
        record
    };
    (1..7).chain(ends).flat_map(changed).collect()
}

/// The record without its last byte.
fn cut(record: &[u8]) -> Vec<u8> {
    record[..record.len() - 1].to_vec()
}
