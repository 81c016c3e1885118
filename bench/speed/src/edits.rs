//! Edits of a full panel: the library's, beside the twin and two recounts.

use crate::panel::{by_column, by_connection, Panel, Record, Recount, Twin};
use crate::{calls, seconds, ROUNDS};
use std::hint::black_box;

const COLUMNS: u8 = 255;
const TRACKS: u8 = 36;
const CONNECTIONS: usize = 64;
/// The connection that is dropped and moved.
const NUMBER: u64 = 20;

impl Panel for silienvo::Panel {
    fn add(&mut self, left: u64, right: u64, mark: u8) -> Option<()> {
        self.add(left, right, mark).ok()
    }

    fn drop(&mut self, number: u64) -> Option<()> {
        self.drop(number).ok()
    }

    fn move_to(&mut self, number: u64, left: u64, right: u64) -> Option<()> {
        self.move_to(number, left, right).ok()
    }

    fn connection(&self, number: usize) -> Record {
        let c = self.connections()[number - 1];
        [c.left, c.right, c.mark]
    }

    fn loads(&self) -> &[u8] {
        self.loads()
    }
}

/// A list: the span of its connections, and how many nets they are pieces of, in turn; 0 for connections on their own.
struct List {
    name: &'static str,
    span: u8,
    nets: usize,
}

const LISTS: [List; 4] = [
    List { name: "net-0-span-255", span: 255, nets: 0 },
    List { name: "net-0-span-16", span: 16, nets: 0 },
    List { name: "3-nets-span-255", span: 255, nets: 3 },
    List { name: "1-net-span-16", span: 16, nets: 1 },
];

impl List {
    fn records(&self) -> [Record; CONNECTIONS] {
        let places = usize::from(COLUMNS - self.span) + 1;
        std::array::from_fn(|i| {
            let left = 1 + (7 * i % places) as u8;
            let mark = if self.nets == 0 { 0 } else { 2 + 2 * (i % self.nets) as u8 };
            [left, left + (self.span - 1), mark]
        })
    }

    /// Where connection `NUMBER` is moved to: by one column, and far.
    fn targets(&self) -> [(u64, u64); 2] {
        let [left, right, _] = self.records()[NUMBER as usize - 1].map(u64::from);
        if self.span == COLUMNS {
            [(left + 1, right), (200, right)]
        } else {
            [(left + 1, right + 1), (255 - u64::from(self.span), 254)]
        }
    }
}

fn with<P: Panel>(mut panel: P, records: &[Record]) -> P {
    for &[left, right, mark] in records {
        panel.add(left.into(), right.into(), mark).expect("a good connection");
    }
    panel
}

/// Seconds that one edit takes, for each kind: the add of the last connection, a drop and the add back, a move by one column and back, a move far and back.
fn timed<P: Panel>(list: &List, empty: P) -> [f64; 4] {
    let records = list.records();
    let short = with(empty, &records[..CONNECTIONS - 1]);
    let [left, right, mark] = records[CONNECTIONS - 1];
    let mut panel = short;
    let each = |edits: f64, edit: &mut dyn FnMut()| {
        let n = calls(&mut *edit);
        seconds(n, edit) / edits
    };
    let add = each(1.0, &mut || {
        panel = short;
        black_box(&mut panel).add(left.into(), right.into(), mark).expect("room");
    });
    let mut panel = with(empty, &records);
    let dropped = each(2.0, &mut || {
        let [left, right, mark] = panel.connection(NUMBER as usize);
        black_box(&mut panel).drop(NUMBER).expect("a connection");
        black_box(&mut panel).add(left.into(), right.into(), mark).expect("room");
    });
    let mut panel = with(empty, &records);
    let [from, to, _] = records[NUMBER as usize - 1].map(u64::from);
    let [by_one, far] = list.targets().map(|(left, right)| {
        each(2.0, &mut || {
            black_box(&mut panel).move_to(NUMBER, left, right).expect("good columns");
            black_box(&mut panel).move_to(NUMBER, from, to).expect("good columns");
        })
    });
    [add, dropped, by_one, far]
}

/// The loads after each edit.
fn loads_after<P: Panel>(list: &List, empty: P) -> Vec<Vec<u8>> {
    let mut panel = with(empty, &list.records());
    let mut loads = vec![panel.loads().to_vec()];
    for (left, right) in list.targets() {
        panel.move_to(NUMBER, left, right).expect("good columns");
        loads.push(panel.loads().to_vec());
        let [left, right, mark] = panel.connection(NUMBER as usize);
        panel.drop(NUMBER).expect("a connection");
        loads.push(panel.loads().to_vec());
        panel.add(left.into(), right.into(), mark).expect("room");
        loads.push(panel.loads().to_vec());
    }
    loads
}

fn library() -> silienvo::Panel {
    silienvo::Panel::new(COLUMNS.into(), TRACKS.into()).expect("sizes of a panel")
}

/// The best of all rounds, in turn: the library, the twin, and the two recounts, which all have the same loads.
fn best(list: &List) -> [[f64; 4]; 4] {
    let (twin, columns, connections) = (Twin::new(COLUMNS), Recount::new(COLUMNS, by_column), Recount::new(COLUMNS, by_connection));
    let loads = loads_after(list, library());
    let others = [loads_after(list, twin), loads_after(list, columns), loads_after(list, connections)];
    assert!(others.iter().all(|other| *other == loads), "{}", list.name);
    let mut best = [[f64::MAX; 4]; 4];
    for _ in 0..ROUNDS {
        let times = [timed(list, library()), timed(list, twin), timed(list, columns), timed(list, connections)];
        for (best, time) in best.iter_mut().flatten().zip(times.into_iter().flatten()) {
            *best = best.min(time);
        }
    }
    best
}

pub fn run() {
    println!("Edits of a full panel, 64 connections over 255 columns. `ratio`: an edit of the library by one of the twin; `recount`: by one that counts again column");
    println!("by column; `quickest`: by one that counts again connection by connection. An add is timed with the copy of the panel that it is done on, drops and");
    println!("moves with what undoes them, half of the time each.");
    for list in LISTS {
        let best = best(&list);
        println!("{:<20} {:<30} {:>11} {:>11} {:>11} {:>11}", list.name, "ns an edit", "library", "twin", "recount", "quickest");
        for (i, edit) in ["add", "drop", "move-by-one", "move-far"].into_iter().enumerate() {
            let [library, twin, recount, quickest] = [0, 1, 2, 3].map(|who| best[who][i] * 1e9);
            let what = format!("{edit}, {:.0} a second", 1e9 / library);
            println!("{:<20} {what:<30} {library:>11.2} {twin:>11.2} {recount:>11.2} {quickest:>11.2}", "");
            println!("{} {edit} ratio {:.2}", list.name, library / twin);
            println!("{} {edit} recount {:.3}", list.name, library / recount);
            println!("{} {edit} quickest {:.3}", list.name, library / quickest);
        }
    }
}
