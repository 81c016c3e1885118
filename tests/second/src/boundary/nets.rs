//! Pieces of one net. Every two connections of job B share a segment on either track, so which of them are pieces of one net decides.

use super::{add, hex, All};
use crate::{Connection, Job, Track};

pub fn add_all(all: &mut All) {
    routed(all);
    judged(all);
    lines(all);
    replies(all);
    on_one_track(all);
    any_mark(all);
    editor(all);
}

/// Job B with these marks, and the flags of its tracks.
fn b([first, second, third]: [u8; 3], [over, under]: [u8; 2]) -> String {
    hex(&[2, over, 3, 6, 2, under, 2, 6, 3, 5, first, 4, 6, second, 4, 4, third, 17, 0, 9, 0, 6, 2, 3, 2])
}

/// Marks, flags, and the answer at the need.
const ROUTED: [([u8; 3], [u8; 2], u32, &str); 27] = [
    // Connections on their own, and three nets.
    ([0, 0, 0], [0, 0], 10, "unroutable 10 aabbcc"),
    ([1, 1, 1], [1, 1], 10, "unroutable 10 aabbcc"),
    ([0, 1, 0], [1, 1], 10, "unroutable 10 aabbcc"),
    ([2, 0, 4], [0, 0], 10, "unroutable 10 aabbcc"),
    ([2, 4, 6], [0, 0], 10, "unroutable 10 aabbcc"),
    // The first and the last are pieces of one net; the first two; the last two; all.
    ([2, 0, 2], [0, 0], 4, "routed 4 010201"),
    ([2, 4, 2], [0, 0], 4, "routed 4 010201"),
    ([2, 2, 0], [0, 0], 4, "routed 4 010102"),
    ([0, 2, 2], [0, 0], 5, "routed 5 010202"),
    ([2, 2, 2], [0, 0], 3, "routed 3 010101"),
    // Pieces that differ in the critical mark. Where no track is a performance track, every track is barred for the critical ones.
    ([3, 0, 2], [0, 0], 2, "unroutable 2 aabbcc"),
    ([2, 0, 3], [0, 0], 10, "unroutable 10 aabbcc"),
    ([2, 1, 2], [0, 0], 6, "unroutable 6 aabbcc"),
    ([1, 1, 1], [0, 0], 2, "unroutable 2 aabbcc"),
    ([3, 0, 2], [0, 1], 5, "routed 5 020102"),
    ([2, 0, 3], [0, 1], 9, "routed 9 020102"),
    ([3, 0, 2], [1, 0], 4, "routed 4 010201"),
    ([3, 1, 2], [1, 1], 4, "routed 4 010201"),
    // The last nets, and marks that would be one net if a bit were lost.
    ([254, 0, 254], [0, 0], 4, "routed 4 010201"),
    ([255, 0, 254], [1, 1], 4, "routed 4 010201"),
    ([255, 255, 255], [1, 1], 3, "routed 3 010101"),
    ([254, 254, 0], [0, 0], 4, "routed 4 010102"),
    ([128, 0, 128], [0, 0], 4, "routed 4 010201"),
    ([254, 0, 126], [0, 0], 10, "unroutable 10 aabbcc"),
    ([130, 0, 2], [0, 0], 10, "unroutable 10 aabbcc"),
    ([128, 0, 0], [0, 0], 10, "unroutable 10 aabbcc"),
    ([0, 254, 0], [0, 0], 10, "unroutable 10 aabbcc"),
];

/// At the need, and one below it.
fn routed(all: &mut All) {
    for (marks, flags, need, answer) in ROUTED {
        add(all, format!("route {} {need} aabbcc", b(marks, flags)), answer);
        add(all, format!("route {} {} aabbcc", b(marks, flags), need - 1), format!("undecided {} aabbcc", need - 1));
    }
    add(all, format!("route {} 4294967295 aabbccdd", b([2, 0, 2], [0, 0])), "routed 4 010201dd");
    add(all, format!("route {} 4 aabb", b([2, 0, 2], [0, 0])), "refused 9 0 aabb");
    add(all, format!("program {}", b([2, 0, 2], [0, 0])), hex(b"routed 4\n1 1 1 2\n2 2 2 2\n3 1 2 2\n"));
    add(all, format!("program {}", b([2, 0, 4], [0, 0])), hex(b"unroutable 10\n"));
    // Twelve tracks of one segment and thirteen nets over it, two pieces each: the last net finds none, after longer than the budget.
    let tracks = vec![Track { performance: false, ends: vec![1] }; 12];
    let connections = (0..26).map(|i| Connection { left: 1, right: 1, mark: 2 + i / 2 * 2 }).collect();
    let all_over = Job { columns: 1, limit: 1, tracks, connections };
    add(all, format!("program {}", hex(&all_over.encode())), hex(b"undecided 1000000\n"));
}

fn judged(all: &mut All) {
    for (marks, labels, answer) in [
        ([2, 0, 2], "010201", "legal"),
        ([2, 0, 2], "020102", "legal"),
        ([2, 0, 2], "010101", "refused 11 2"),
        ([2, 0, 2], "010202", "refused 11 3"),
        ([2, 2, 2], "020202", "legal"),
        ([0, 0, 0], "010201", "refused 11 3"),
        ([2, 0, 4], "010201", "refused 11 3"),
        ([254, 0, 126], "010201", "refused 11 3"),
        ([254, 0, 254], "010201", "legal"),
        ([3, 0, 2], "010201", "refused 11 1"),
    ] {
        add(all, format!("judge {} {labels}", b(marks, [0, 0])), answer);
    }
}

/// All clauses: pieces of one net have none together, and what bars one of them has its clause in the second group.
fn lines(all: &mut All) {
    let blank = "00".repeat(62);
    let apart = ["p cnf 3 6\n", "1 2 0\n", "-1 -2 0\n", "1 3 0\n", "-1 -3 0\n", "2 3 0\n", "-2 -3 0\n"];
    let joined = ["p cnf 3 4\n", "1 2 0\n", "-1 -2 0\n", "2 3 0\n", "-2 -3 0\n"];
    let barred = ["p cnf 3 4\n", "1 0\n", "-1 0\n", "2 3 0\n", "-2 -3 0\n"];
    for (marks, lines) in [([0, 0, 0], &apart[..]), ([2, 0, 2], &joined), ([2, 2, 2], &["p cnf 3 0\n"]), ([3, 0, 2], &barred)] {
        let job = b(marks, [0, 0]);
        for (n, text) in lines.iter().enumerate() {
            add(all, format!("line {job} {n} {blank}"), format!("line {} {}{}", text.len(), hex(text.as_bytes()), &blank[2 * text.len()..]));
        }
        add(all, format!("line {job} {} {blank}", lines.len()), format!("refused 10 0 {blank}"));
    }
}

fn replies(all: &mut All) {
    for (marks, values, answer) in [
        ([2, 0, 2], "-1 2 -3", "accepted 010201dd"),
        ([2, 0, 2], "1 -2 3", "accepted 020102dd"),
        ([2, 0, 2], "-1 -2 -3", "refused 8 1 aabbccdd"),
        ([2, 0, 2], "-1 2 3", "refused 8 4 aabbccdd"),
        ([2, 2, 2], "1 2 3", "accepted 020202dd"),
        ([0, 0, 0], "-1 2 -3", "refused 8 3 aabbccdd"),
        ([3, 0, 2], "-1 2 -3", "refused 8 1 aabbccdd"),
    ] {
        let text = format!("s SATISFIABLE\nv {values} 0\n");
        add(all, format!("reply {} {} aabbccdd", b(marks, [0, 0]), hex(text.as_bytes())), answer);
    }
}

/// One performance track of three segments, 1-2, 3-4 and 5-6: a piece may lie over its own net's segments, and over no other on the way.
fn on_one_track(all: &mut All) {
    let job = |connections: &[[u8; 3]]| {
        let connections = connections.iter().map(|&[left, right, mark]| Connection { left, right, mark }).collect();
        hex(&Job { columns: 6, limit: 3, tracks: vec![Track { performance: true, ends: vec![2, 4, 6] }], connections }.encode())
    };
    let strangers: Vec<[u8; 3]> = (0..64).map(|i| [1, 6, 254 - 2 * i]).collect();
    // The connections, and the number of the first that does not fit, 0 if all do.
    for (connections, wrong) in [
        (&[[1, 2, 2], [3, 4, 0], [1, 4, 2]][..], 3),
        (&[[3, 4, 0], [1, 2, 2], [1, 4, 2]], 3),
        (&[[1, 2, 2], [5, 6, 4], [1, 6, 2]], 3),
        (&[[1, 6, 2], [3, 4, 3], [3, 3, 4]], 3),
        (&[[5, 6, 2], [3, 4, 2], [1, 6, 2]], 0),
        (&[[1, 6, 2], [5, 6, 2], [3, 4, 2], [1, 1, 3]], 0),
        (&[[1, 2, 254], [3, 4, 128], [5, 6, 0], [1, 2, 255], [4, 4, 129], [6, 6, 0]], 6),
        (&[[1, 2, 254], [1, 2, 0]], 2),
        (&[[1, 2, 0], [1, 2, 254]], 2),
        (&[[1, 2, 0], [1, 2, 1]], 2),
        (&[[1, 6, 254]; 64], 0),
        (&strangers, 2),
    ] {
        let (file, count) = (job(connections), connections.len());
        let (labels, before) = ("01".repeat(count), "ff".repeat(count));
        let (judged, routed) = match wrong {
            0 => ("legal".to_string(), format!("routed {count} {labels}")),
            _ => (format!("refused 11 {wrong}"), format!("unroutable {wrong} {before}")),
        };
        add(all, format!("judge {file} {labels}"), judged);
        add(all, format!("route {file} 100 {before}"), routed);
    }
}

/// Any mark is a good one, in a file, for the P1 writer and for the editor; bad columns are bad with any mark.
fn any_mark(all: &mut All) {
    let tracks = format!("{}{}{}", "0600050a0f14191e".repeat(4), "03000a141e".repeat(2), "02010f1e".repeat(2));
    for mark in [0, 1, 2, 3, 126, 127, 128, 129, 254, 255] {
        add(all, format!("read 0100060106{mark:02x}0600030006010101"), "job 6 1 1 1 3 3");
        add(all, format!("p1 011e{mark:02x} 2 {}", "ff".repeat(61)), format!("file 61 {tracks}011e{mark:02x}350003001e080102"));
        // Tracks 1 to 6 have too many segments for it; 7 takes it, critical or not.
        add(all, format!("p1route 011e{mark:02x} 2 7 ff"), "routed 7 07");
    }
    for mark in ["02", "03", "80", "ff"] {
        add(all, format!("read 0100060107{mark}0600030006010101"), "refused 5 1");
        add(all, format!("p1 011f{mark} 2 -"), "refused 5 1 -");
        add(all, format!("p1route 000a{mark} 2 7 ff"), "refused 5 1 ff");
    }
}

/// Two connections over the first segment of P1's tracks.
fn editor(all: &mut All) {
    for (first, second, answer) in [
        ("02", "02", "routed 2 0101ff"),
        ("02", "04", "routed 3 0102ff"),
        ("00", "00", "routed 3 0102ff"),
        ("ff", "ff", "routed 14 0707ff"),
        ("ff", "fd", "routed 15 0708ff"),
        ("01", "01", "routed 15 0708ff"),
        ("ff", "fe", "routed 8 0701ff"),
        ("fe", "ff", "routed 8 0107ff"),
    ] {
        add(all, format!("p1route 0105{first}0105{second} 1 100 aabbff"), answer);
    }
}

#[cfg(test)]
mod tests {
    #[test]
    fn job_b_has_three_marks_of_0() {
        assert_eq!(super::b([0, 0, 0], [0, 0]), super::super::B);
    }
}
