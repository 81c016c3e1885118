//! Requests whose answers are written here by hand, from the product's documents: their examples, and the limits on both sides.

mod lent;
mod nets;
mod panel;

use crate::{Connection, Job, Track};

const A: &str = "02000306020002060102000305000406001100090006020302";
const B: &str = "02000306020002060305000406000404001100090006020302";

fn hex(bytes: &[u8]) -> String {
    let mut out = Vec::new();
    wire::hex(&mut out, bytes);
    String::from_utf8(out).expect("hex")
}

fn job(columns: u8, limit: u8, tracks: &[&[u8]], connections: &[(u8, u8)]) -> String {
    let job = Job {
        columns,
        limit,
        tracks: tracks.iter().map(|ends| Track { performance: false, ends: ends.to_vec() }).collect(),
        connections: connections.iter().map(|&(left, right)| Connection { left, right, mark: 0 }).collect(),
    };
    hex(&job.encode())
}

/// One track of one column, bytes left over, and a trailer: its distance as it is, or cut to two bytes.
fn left_over(distance: usize) -> String {
    let mut file = vec![1, 0, 1];
    file.resize(distance, 0);
    file.extend((distance as u16).to_le_bytes());
    file.extend([0, 0, 1, 1, 0, 1]);
    hex(&file)
}

/// Requests and answers.
pub fn requests() -> Vec<(String, String)> {
    let mut all = Vec::new();
    job_a(&mut all);
    replies_to_a(&mut all);
    small_jobs(&mut all);
    nets::add_all(&mut all);
    limits(&mut all);
    part(&mut all);
    program(&mut all);
    panel::add_all(&mut all);
    lent::add_all(&mut all);
    protocol(&mut all);
    all
}

type All = Vec<(String, String)>;

fn add(all: &mut All, request: impl Into<String>, answer: impl Into<String>) {
    all.push((request.into(), answer.into()));
}

fn job_a(all: &mut All) {
    add(all, format!("read {A}"), "job 6 2 3 2 8 9");
    add(all, format!("route {A} 4 aabbccdd"), "routed 4 010201dd");
    add(all, format!("route {A} 3 aabbccdd"), "undecided 3 aabbccdd");
    add(all, format!("route {A} 4294967295 aabbcc"), "routed 4 010201");
    add(all, format!("route {A} 0 aabbcc"), "undecided 0 aabbcc");
    add(all, format!("route {A} 4 aabb"), "refused 9 0 aabb");
    add(all, format!("route {A} 3 -"), "refused 9 0 -");
    add(all, format!("judge {A} 010201"), "legal");
    add(all, format!("judge {A} 020102"), "legal");
    add(all, format!("judge {A} 010101"), "refused 11 2");
    add(all, format!("judge {A} 010200"), "refused 11 3");
    add(all, format!("judge {A} 030201"), "refused 11 1");
    add(all, format!("judge {A} 0102"), "refused 11 0");
    add(all, format!("judge {A} 01020101"), "refused 11 0");
    add(all, format!("judge {A} -"), "refused 11 0");
    let blank = "00".repeat(62);
    for (n, text) in ["p cnf 3 3\n", "1 2 0\n", "2 3 0\n", "-2 -3 0\n"].iter().enumerate() {
        let rest = "00".repeat(62 - text.len());
        add(all, format!("line {A} {n} {blank}"), format!("line {} {}{rest}", text.len(), hex(text.as_bytes())));
    }
    for n in ["4", "4294967296", "4294967297", "18446744073709551615"] {
        add(all, format!("line {A} {n} {blank}"), format!("refused 10 0 {blank}"));
    }
    add(all, format!("line {A} 4 {}", &blank[2..]), format!("refused 9 0 {}", &blank[2..]));
}

fn replies_to_a(all: &mut All) {
    for (text, answer) in [
        ("", "refused 6 0 aabbccdd"),
        ("\n", "refused 6 0 aabbccdd"),
        ("s SATISFIABLE\nv -1 2 -3 0\n", "accepted 010201dd"),
        ("v -3 2\nc\nv -1 0\n\ns SATISFIABLE", "accepted 010201dd"),
        ("c \r\ns SATISFIABLE\nv 1 -2 3 0", "accepted 020102dd"),
        ("s SATISFIABLE\nv -1 -2 -3 0\n", "refused 8 1 aabbccdd"),
        ("s SATISFIABLE\nv 1 -2 -3 0\n", "refused 8 2 aabbccdd"),
        ("s SATISFIABLE\nv 1 2 3 0\n", "refused 8 3 aabbccdd"),
        ("s SATISFIABLE\nv 1 2 0\n", "refused 7 3 aabbccdd"),
        ("s SATISFIABLE\nv 0\n", "refused 7 1 aabbccdd"),
        ("s SATISFIABLE\nv 1 -1 3 0\n", "refused 7 2 aabbccdd"),
        ("s SATISFIABLE\nv 1\nv 2 4 0\n", "refused 7 3 aabbccdd"),
        ("s SATISFIABLE\nv 1 999 1000 0\n", "refused 6 2 aabbccdd"),
        ("s SATISFIABLE\nv -1 2 -3\n", "refused 6 0 aabbccdd"),
        ("s SATISFIABLE\nv -1 0 2 -3\n", "refused 6 0 aabbccdd"),
        ("s SATISFIABLE\nv -1 2 -3 0 0\n", "refused 6 0 aabbccdd"),
        ("s SATISFIABLE\nv -1 2 -3 0\ns SATISFIABLE\n", "refused 6 0 aabbccdd"),
        ("s SATISFIABLE\nv -1 2 -3 0 \n", "refused 6 2 aabbccdd"),
        ("s SATISFIABLE\r\nv -1 2 -3 0\n", "refused 6 1 aabbccdd"),
        ("s SATISFIABLE\nv -1 2 -3 -0\n", "refused 6 2 aabbccdd"),
        ("s SATISFIABLE\nv\n", "refused 6 2 aabbccdd"),
        ("s SATISFIABLE\nv -1 2 -3 0\n cc", "refused 6 3 aabbccdd"),
        ("s SATISFIABLE", "refused 6 0 aabbccdd"),
        ("s UNSATISFIABLE\n", "claimed aabbccdd"),
        ("c a\nc\ns UNSATISFIABLE", "claimed aabbccdd"),
        ("s UNSATISFIABLE\nv 0\n", "refused 6 0 aabbccdd"),
        ("s UNKNOWN\n", "unknown aabbccdd"),
        ("s UNKNOWN\nv 1\n", "refused 6 0 aabbccdd"),
        ("s unknown\n", "refused 6 1 aabbccdd"),
        ("SAT\n-1 2 -3 0\n", "refused 6 1 aabbccdd"),
    ] {
        add(all, format!("reply {A} {} aabbccdd", hex(text.as_bytes())), answer);
    }
    add(all, format!("reply {A} - aabb"), "refused 9 0 aabb");
    let many = |line: &str, times: usize, end: &str| hex(format!("{}{end}", line.repeat(times)).as_bytes());
    add(all, format!("reply {A} {} aabbcc", many("\n", 70_000, "x")), "refused 6 70001 aabbcc");
    add(all, format!("reply {A} {} aabbcc", many("c\n", 70_000, "s UNKNOWN")), "unknown aabbcc");
    add(all, format!("reply {A} {} aabbcc", many("c ", 70_000, "\ns UNKNOWN\n\n")), "unknown aabbcc");
    add(all, format!("reply {A} {} aabbcc", many("v 1\n", 300, "v 0\ns SATISFIABLE")), "refused 7 2 aabbcc");
    add(all, format!("reply {A} {} aabbcc", many("s UNKNOWN\n", 257, "")), "refused 6 0 aabbcc");
    add(all, format!("reply {A} {} aabbcc", many("v 0\n", 257, "s SATISFIABLE")), "refused 6 0 aabbcc");
}

fn small_jobs(all: &mut All) {
    add(all, format!("route {B} 10 aabbcc"), "unroutable 10 aabbcc");
    add(all, format!("route {B} 9 aabbcc"), "undecided 9 aabbcc");
    let two: &[&[u8]] = &[&[3, 6], &[2, 6]];
    let b1 = job(6, 1, two, &[(3, 5), (4, 6), (4, 4)]);
    add(all, format!("route {b1} 6 aabbcc"), "unroutable 6 aabbcc");
    add(all, format!("route {b1} 5 aabbcc"), "undecided 5 aabbcc");
    let critical = "02000306020002060102000305010406001100090006020302";
    add(all, format!("route {critical} 6 aabbcc"), "unroutable 6 aabbcc");
    let none = job(6, 2, two, &[]);
    add(all, format!("read {none}"), "job 6 2 0 2 8 0");
    add(all, format!("route {none} 0 -"), "routed 0 -");
    add(all, format!("route {none} 0 aa"), "routed 0 aa");
    add(all, format!("judge {none} -"), "legal");
    add(all, format!("judge {none} 01"), "refused 11 0");
    let blank = "00".repeat(62);
    add(all, format!("line {none} 0 {blank}"), format!("line 10 {}{}", hex(b"p cnf 0 0\n"), &blank[20..]));
    add(all, format!("line {none} 1 {blank}"), format!("refused 10 0 {blank}"));
    for (text, answer) in [
        ("s SATISFIABLE\nv 0\n", "accepted -"),
        ("s SATISFIABLE\n", "refused 6 0 -"),
        ("s SATISFIABLE\nv 1 0\n", "refused 7 1 -"),
        ("s UNSATISFIABLE\n", "claimed -"),
    ] {
        add(all, format!("reply {none} {} -", hex(text.as_bytes())), answer);
    }
    let one = job(6, 1, &[&[6]], &[(1, 6)]);
    add(all, format!("route {one} 1 ff"), "routed 1 01");
    add(all, format!("route {one} 0 ff"), "undecided 0 ff");
    for (n, text) in ["p cnf 1 1\n", "-1 0\n"].iter().enumerate() {
        add(all, format!("line {one} {n} {blank}"), format!("line {} {}{}", text.len(), hex(text.as_bytes()), &blank[2 * text.len()..]));
    }
    for (text, answer) in [("s SATISFIABLE\nv -1 0\n", "accepted 01"), ("s SATISFIABLE\nv 1 0\n", "refused 8 1 ff")] {
        add(all, format!("reply {one} {} ff", hex(text.as_bytes())), answer);
    }
    add(all, "read -", "refused 1 0");
    add(all, "read 00000000060102", "refused 1 0");
    add(all, "read 0000000006010001", "refused 4 1");
    add(all, "route 0000000006010001 1 -", "refused 4 1 -");
}

/// N, T, M, K and g on both sides.
fn limits(all: &mut All) {
    let tracks = |n: usize| vec![&[1u8][..]; n];
    add(all, format!("read {}", job(1, 1, &tracks(36), &[])), "job 1 36 0 1 108 0");
    add(all, format!("read {}", job(1, 1, &tracks(37), &[])), "refused 2 0");
    add(all, format!("read {}", job(1, 1, &tracks(0), &[])), "refused 2 0");
    add(all, format!("read {}", job(0, 1, &tracks(1), &[])), "refused 2 0");
    add(all, format!("read {}", job(1, 32, &tracks(1), &[])), "job 1 1 0 32 3 0");
    add(all, format!("read {}", job(1, 33, &tracks(1), &[])), "refused 2 0");
    add(all, format!("read {}", job(1, 0, &tracks(1), &[])), "refused 2 0");
    add(all, format!("read {}", job(255, 1, &[&[255]], &[(255, 255)])), "job 255 1 1 1 3 3");

    let pairs: Vec<u8> = (1..=32).map(|s| 2 * s).collect();
    let two: &[&[u8]] = &[&pairs, &pairs];
    let over = |n: u8| (0..n).map(|m| (2 * (m % 32) + 1, 2 * (m % 32) + 2)).collect::<Vec<_>>();
    let labels = format!("{}{}", "01".repeat(32), "02".repeat(32));
    let full = job(64, 1, two, &over(64));
    add(all, format!("read {full}"), "job 64 2 64 1 68 192");
    add(all, format!("route {full} 96 {}", "ff".repeat(65)), format!("routed 96 {labels}ff"));
    add(all, format!("route {full} 95 {}", "ff".repeat(64)), format!("undecided 95 {}", "ff".repeat(64)));
    add(all, format!("route {full} 96 {}", "ff".repeat(63)), format!("refused 9 0 {}", "ff".repeat(63)));
    add(all, format!("judge {full} {labels}"), "legal");
    add(all, format!("read {}", job(64, 1, two, &over(65))), "refused 2 0");
    add(all, format!("route {} 96 {}", job(64, 1, two, &over(65)), "ff".repeat(65)), format!("refused 2 0 {}", "ff".repeat(65)));

    let ends: Vec<u8> = (1..=33).collect();
    let wide = |limit| job(32, limit, &[&ends[..32]], &[(1, 32)]);
    add(all, format!("route {} 1 ff", wide(32)), "routed 1 01");
    add(all, format!("route {} 1 ff", wide(31)), "unroutable 1 ff");
    add(all, format!("route {} 1 ff", wide(33)), "refused 2 0 ff");
    add(all, format!("read {}", job(32, 1, &[&ends[..32]], &[])), "job 32 1 0 1 34 0");
    add(all, format!("read {}", job(33, 1, &[&ends], &[])), "refused 4 1");
    add(all, format!("read {}", job(33, 1, &[&[33], &ends], &[])), "refused 4 2");
    add(all, format!("read {}", job(33, 1, &[&[33], &[]], &[])), "refused 4 2");
    add(all, format!("read {}", job(6, 1, &[&[6]], &[(1, 7)])), "refused 5 1");
    add(all, format!("read {}", job(6, 1, &[&[6]], &[(1, 6), (0, 6)])), "refused 5 2");
    add(all, format!("read {}", job(6, 1, &[&[6]], &[(1, 6), (4, 3)])), "refused 5 2");
    for trailer in [
        "0700030006010101",
        "0500030006010101",
        "0600020006010101",
        "0600060006010101",
        "0601030006010101",
        "0680030006010101",
        "0600030106010101",
        "0600038006010101",
    ] {
        add(all, format!("read 010006010600{trailer}"), "refused 3 0");
    }
    add(all, "read 010006010600060003000601010100", "refused 2 0");
    add(all, "read 01000200030006010101", "refused 3 0");
    add(all, format!("read {}", left_over(65_535)), "refused 4 2");
    add(all, format!("read {}", left_over(65_536)), "refused 3 0");
    add(all, format!("read {}", left_over(65_539)), "refused 3 0");
    add(all, "read 010006ff0400000006010001", "refused 4 2");
}

fn part(all: &mut All) {
    let tracks = format!("{}{}{}", "0600050a0f14191e".repeat(4), "03000a141e".repeat(2), "02010f1e".repeat(2));
    let empty = format!("{tracks}320000001e080003");
    add(all, format!("p1 - 3 {}", "ff".repeat(59)), format!("file 58 {empty}ff"));
    add(all, format!("p1 - 3 {}", "ff".repeat(57)), format!("refused 9 0 {}", "ff".repeat(57)));
    add(all, format!("p1 011e01 2 {}", "ff".repeat(61)), format!("file 61 {tracks}011e01350003001e080102"));
    add(all, "p1 01 2 -", "refused 2 0 -");
    add(all, "p1 011f00 2 -", "refused 5 1 -");
    add(all, "p1 011e02 2 -", "refused 9 0 -");
    for limit in ["0", "33", "256", "257", "4294967295"] {
        add(all, format!("p1 - {limit} -"), "refused 2 0 -");
        add(all, format!("p1route - {limit} 0 -"), "refused 2 0 -");
    }
    for (records, answer) in [(64, "refused 9 0 -"), (65, "refused 2 0 -"), (256, "refused 2 0 -"), (257, "refused 2 0 -")] {
        let connections = "010100".repeat(records);
        add(all, format!("p1 {connections} 2 -"), answer);
        add(all, format!("p1route {connections} 2 0 -"), answer);
    }
    add(all, "p1route - 1 0 -", "routed 0 -");
    add(all, "p1route 011e00 2 7 ff", "routed 7 07");
    add(all, "p1route 011e00 2 6 ff", "undecided 6 ff");
    add(all, "p1route 011e01 1 8 ff", "unroutable 8 ff");
    add(all, "p1route 010501010501 1 15 ffffff", "routed 15 0708ff");
    add(all, "p1route 010500 1 1 -", "refused 9 0 -");
}

fn program(all: &mut All) {
    add(all, format!("program {A}"), hex(b"routed 4\n1 1 1 1\n2 2 2 2\n3 1 2 2\n"));
    add(all, format!("program {B}"), hex(b"unroutable 10\n"));
    add(all, "program -", hex(b"refused 1 0\n"));
    add(all, format!("program {}", left_over(4096 - 8)), hex(b"refused 4 2\n"));
    add(all, format!("program {}", left_over(4097 - 8)), hex(b"refused 3 0\n"));
    add(all, format!("program {}00", left_over(4096 - 8)), hex(b"refused 3 0\n"));
    // Twelve tracks of one segment and thirteen connections over it: the last finds none, and the search would go on for longer than the budget.
    let all_over = job(1, 1, &[&[1u8][..]; 12], &[(1, 1); 13]);
    add(all, format!("program {all_over}"), hex(b"undecided 1000000\n"));
}

fn protocol(all: &mut All) {
    for line in ["", "read", "read  -", "read 0", "READ -", "route - 4294967296 -", "p1route 0101 1 1 -", "line - x -", "what -"] {
        add(all, line, "protocol-error");
    }
}

#[cfg(test)]
mod tests {
    use crate::protocol::{answer_text, Way};

    #[test]
    fn the_fast_way_answers_as_written() {
        for (line, expected) in super::requests() {
            let got = match wire::Request::parse(line.as_bytes()) {
                Ok(request) => answer_text(Way::Fast, request),
                Err(bad) => bad.word().as_bytes().to_vec(),
            };
            assert_eq!(String::from_utf8_lossy(&got), expected, "{line}");
        }
    }
}
