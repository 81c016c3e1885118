//! How often each answer was given by each op, and each limit met. None that can be given may stay at 0.

use second::kind::kinds;
use second::make::MARKS;
use std::collections::BTreeMap;
use wire::Request;

const OPS: [&str; 11] = ["read", "route", "judge", "line", "reply", "p1", "p1route", "program", "edit", "panel", "panelroute"];

/// Rows of the table, and the ops that can give them. Answers are counted once: behind `nets` stand those to jobs in which a net above 0 occurs twice, and
/// behind `by nets alone` the routings of such jobs in which two pieces share a segment. Without the rule about nets these would not be legal. Each operation on
/// a panel is counted by its answer and by what it did: `a piece` shares a column with another of its net, where its load does not follow it alone.
const ROWS: [(&str, &[&str]); 63] = [
    ("job", &["read"]),
    ("routed", &["route", "p1route", "program", "panelroute"]),
    ("routed, nets", &["route", "p1route", "program", "panelroute"]),
    ("routed, by nets alone", &["route", "p1route", "program", "panelroute"]),
    ("unroutable", &["route", "p1route", "program", "panelroute"]),
    ("unroutable, nets", &["route", "p1route", "program", "panelroute"]),
    ("undecided", &["route", "p1route", "program", "panelroute"]),
    ("undecided, nets", &["route", "p1route", "program", "panelroute"]),
    ("legal", &["judge"]),
    ("legal, nets", &["judge"]),
    ("legal, by nets alone", &["judge"]),
    ("line", &["line"]),
    ("line, nets", &["line"]),
    ("accepted", &["reply"]),
    ("accepted, nets", &["reply"]),
    ("accepted, by nets alone", &["reply"]),
    ("claimed", &["reply"]),
    ("unknown", &["reply"]),
    ("file", &["p1"]),
    ("done, not red", &["edit", "panel"]),
    ("done, red", &["edit", "panel"]),
    ("made", &["panel"]),
    ("cleared", &["edit", "panel"]),
    ("added", &["edit", "panel"]),
    ("added, a piece", &["edit", "panel"]),
    ("dropped", &["edit", "panel"]),
    ("dropped, a piece", &["edit", "panel"]),
    ("moved", &["edit", "panel"]),
    ("moved, a piece", &["edit", "panel"]),
    ("done, of no sequence", &["panel"]),
    ("done, M above 64", &["panel"]),
    ("a load stays 255", &["panel"]),
    ("a load stays 0", &["panel"]),
    ("refused 1", &["read", "route", "judge", "line", "reply", "program"]),
    ("refused 2", &["read", "route", "judge", "line", "reply", "p1", "p1route", "program", "panelroute"]),
    ("refused 2, sizes", &["edit", "panel"]),
    ("refused 2, full", &["edit", "panel"]),
    ("refused 2, another part", &["panelroute"]),
    ("refused 3", &["read", "route", "judge", "line", "reply", "program"]),
    ("refused 3, over 4096", &["program"]),
    ("refused 4, a track", &["read", "route", "judge", "line", "reply", "program"]),
    ("refused 4, left over", &["read", "route", "judge", "line", "reply", "program"]),
    ("refused 5", &["read", "route", "judge", "line", "reply", "p1", "p1route", "program", "panelroute"]),
    ("refused 5, added", &["edit", "panel"]),
    ("refused 5, moved", &["edit", "panel"]),
    ("refused 5, moved, absent", &["edit", "panel"]),
    ("refused 9", &["route", "line", "reply", "p1", "p1route", "panelroute"]),
    ("refused 6, a line", &["reply"]),
    ("refused 6, the rules", &["reply"]),
    ("refused 7, a literal", &["reply"]),
    ("refused 7, missing", &["reply"]),
    ("refused 8, group 1", &["reply"]),
    ("refused 8, group 2", &["reply"]),
    ("refused 8, group 3", &["reply"]),
    ("refused 8, group 3, nets", &["reply"]),
    ("refused 10", &["line"]),
    ("refused 10, nets", &["line"]),
    ("refused 10, dropped", &["edit", "panel"]),
    ("refused 10, moved", &["edit", "panel"]),
    ("refused 11, not M", &["judge"]),
    ("refused 11, a label", &["judge"]),
    ("refused 11, collides", &["judge"]),
    ("refused 11, collides, nets", &["judge"]),
];
/// The width of a row's name.
const NAME: usize = 27;
/// The width of a column.
const WIDTH: usize = 11;

/// Limits on both sides: what the reader must have said of a file that has this size.
const LIMITS: [(&str, &str); 10] = [
    ("N 255", "job"),
    ("N 0", "refused 2"),
    ("T 36", "job"),
    ("T 37", "refused 2"),
    ("M 64", "job"),
    ("M 65", "refused 2"),
    ("K 32", "job"),
    ("K 33", "refused 2"),
    ("g 32", "job"),
    ("g 33", "refused 4"),
];

#[derive(Default)]
pub struct Table {
    cells: BTreeMap<(&'static str, String), u64>,
    limits: [u64; LIMITS.len()],
    /// How often the reader took a file with a connection of each of `MARKS`.
    marks: [u64; MARKS.len()],
}

impl Table {
    pub fn count(&mut self, request: &Request, answer: &[u8]) {
        for kind in kinds(request, answer) {
            *self.cells.entry((request.op(), kind)).or_default() += 1;
        }
        if let Request::Read { file } = request {
            self.count_limits(file, answer);
        }
    }

    fn count_limits(&mut self, file: &[u8], answer: &[u8]) {
        let Some(&[.., n, t, m, k]) = file.last_chunk::<8>() else { return };
        let g = segments(file);
        let met = [n == 255, n == 0, t == 36, t == 37, m == 64, m == 65, k == 32, k == 33, g == 32, g == 33];
        for (i, met) in met.into_iter().enumerate() {
            self.limits[i] += u64::from(met && answer.starts_with(LIMITS[i].1.as_bytes()));
        }
        if answer.starts_with(b"job") {
            let connections = second::records(&file[file.len() - 8 - 3 * usize::from(m)..file.len() - 8]);
            for (i, mark) in MARKS.into_iter().enumerate() {
                self.marks[i] += u64::from(connections.iter().any(|c| c.mark == mark));
            }
        }
    }

    pub fn join(&mut self, other: Table) {
        for (cell, n) in other.cells {
            *self.cells.entry(cell).or_default() += n;
        }
        for (mine, n) in self.limits.iter_mut().chain(&mut self.marks).zip(other.limits.into_iter().chain(other.marks)) {
            *mine += n;
        }
    }

    /// Prints the table; says how many of its cells are 0.
    pub fn print(&self) -> u64 {
        let mut empty = 0;
        println!("{:<NAME$}{}", "", OPS.map(|op| format!("{op:>WIDTH$}")).concat());
        for (row, ops) in ROWS {
            print!("{row:<NAME$}");
            for op in OPS {
                let n = self.cells.get(&(op, row.to_string())).copied().unwrap_or(0);
                if ops.contains(&op) {
                    print!("{n:>WIDTH$}");
                    empty += u64::from(n == 0);
                } else {
                    print!("{:>WIDTH$}", if n == 0 { ".".to_string() } else { format!("{n}?") });
                }
            }
            println!();
        }
        println!("limits, by the reader:");
        for ((size, answer), n) in LIMITS.iter().zip(self.limits) {
            println!("  {size:<8} {answer:<10} {n:>8}");
            empty += u64::from(n == 0);
        }
        for (mark, n) in MARKS.iter().zip(self.marks) {
            println!("  mark {mark:<3} {:<10} {n:>8}", "job");
            empty += u64::from(n == 0);
        }
        empty
    }
}

/// The most segments that a track record of the file claims.
fn segments(file: &[u8]) -> u8 {
    let (mut at, mut most) = (0, 0);
    for _ in 0..file[file.len() - 3].min(40) {
        let Some(&g) = file.get(at) else { break };
        most = most.max(g);
        at += 2 + usize::from(g);
    }
    most
}
