//! The editor's panel, in the words of request A2. No load is carried along: after each operation all are counted again.

use super::rows::{decide, Row};
use super::{part, route, too_short};
use crate::panel::{Panel, ROOM};
use crate::{Connection, Refusal, Verdict};
use std::collections::BTreeSet;
use wire::{Edited, Op, PANEL};

/// A connection crosses the columns from its left to its right.
fn crosses(c: &Connection, column: u8) -> bool {
    c.left <= column && column <= c.right
}

/// How many distinct nets cross a column: pieces of one net count once, each connection of net 0 by itself.
pub fn load(list: &[Connection], column: u8) -> usize {
    let crossing: Vec<&Connection> = list.iter().filter(|c| crosses(c, column)).collect();
    let nets: BTreeSet<u8> = crossing.iter().map(|c| c.net()).filter(|&net| net > 0).collect();
    let alone = crossing.iter().filter(|c| c.net() == 0).count();
    nets.len() + alone
}

/// The first column whose load exceeds T.
fn red(columns: u8, tracks: u8, load: impl Fn(u8) -> usize) -> Option<u8> {
    (1..=columns).find(|&column| load(column) > usize::from(tracks))
}

fn bad(columns: u8, left: u64, right: u64) -> bool {
    !(1 <= left && left <= right && right <= u64::from(columns))
}

/// 2 for a panel outside the limits and a list at its limit, 5 for a bad connection, 10 for a number that is absent.
fn rows(columns: u8, list: &[Connection], op: Op) -> Vec<Row<'_>> {
    let absent = |number: u64| !(1..=list.len() as u64).contains(&number);
    match op {
        Op::Make { columns, tracks } => vec![Row::new(2, move || (!(1..=255).contains(&columns) || !(1..=36).contains(&tracks)).then_some(0))],
        Op::Clear => vec![],
        Op::Add { left, right, .. } => {
            vec![Row::new(2, || (list.len() == ROOM).then_some(0)), Row::new(5, move || bad(columns, left, right).then_some(list.len() as u64 + 1))]
        }
        Op::Drop { number } => vec![Row::new(10, move || absent(number).then_some(0))],
        Op::Move { number, left, right } => {
            vec![Row::new(5, move || bad(columns, left, right).then_some(number)), Row::new(10, move || absent(number).then_some(0))]
        }
    }
}

/// The list after an operation, unless a row holds: add appends, drop closes the gap, move changes the columns in place.
fn after(columns: u8, list: &[Connection], op: Op) -> Result<Vec<Connection>, Refusal> {
    decide(&rows(columns, list, op))?;
    let numbered = list.iter().copied().zip(1..);
    Ok(match op {
        Op::Make { .. } | Op::Clear => vec![],
        Op::Add { left, right, mark } => [list, &[Connection { left: left as u8, right: right as u8, mark }]].concat(),
        Op::Drop { number } => numbered.filter(|&(_, i)| i != number).map(|(c, _)| c).collect(),
        Op::Move { number, left, right } => {
            let moved = |c: Connection| Connection { left: left as u8, right: right as u8, ..c };
            numbered.map(|(c, i)| if i == number { moved(c) } else { c }).collect()
        }
    })
}

fn said(result: Result<(Vec<u8>, Option<u8>), Refusal>) -> Edited {
    match result {
        Err(Refusal { number, place }) => Edited::Refused { number, place },
        Ok((loads, red)) => Edited::Done { loads, red: u64::from(red.unwrap_or(0)) },
    }
}

/// Operations on an empty list.
pub fn edit(columns: u64, tracks: u64, ops: &[Op]) -> Result<Vec<Edited>, Refusal> {
    decide(&rows(0, &[], Op::Make { columns, tracks }))?;
    let (columns, tracks) = (columns as u8, tracks as u8);
    let mut list = Vec::new();
    let one = |&op: &Op| {
        said(after(columns, &list, op).map(|edited| {
            list = edited;
            let loads = (1..=columns).map(|column| load(&list, column) as u8).collect();
            (loads, red(columns, tracks, |column| load(&list, column)))
        }))
    };
    Ok(ops.iter().map(one).collect())
}

/// The connections of any bytes: a count above the room is read as the room.
fn list_of(panel: &Panel) -> Vec<Connection> {
    panel.room[..usize::from(panel.count).min(ROOM)].to_vec()
}

/// An operation on any bytes. A load's byte goes up where the load of the list does, and down where it does, as far as a byte goes.
fn operate(panel: &Panel, op: Op) -> Result<Panel, Refusal> {
    let before = list_of(panel);
    let list = after(panel.columns, &before, op)?;
    match op {
        Op::Make { columns, tracks } => return Ok(Panel::empty(columns as u8, tracks as u8)),
        Op::Clear => return Ok(Panel::empty(panel.columns, panel.tracks)),
        _ => {}
    }
    let byte = |column: u8| {
        let (byte, was, is) = (panel.loads[usize::from(column)], load(&before, column), load(&list, column));
        match was.cmp(&is) {
            std::cmp::Ordering::Less if byte < 255 => byte + 1,
            std::cmp::Ordering::Greater if byte > 0 => byte - 1,
            _ => byte,
        }
    };
    let loads = (0..=255).map(|column| if column == 0 { panel.loads[0] } else { byte(column) }).collect();
    let room = [&list, &panel.room[list.len()..]].concat();
    Ok(Panel { count: list.len() as u8, room, loads, ..*panel })
}

fn shown(panel: &Panel) -> (Vec<u8>, Option<u8>) {
    let load = |column: u8| panel.loads[usize::from(column)];
    ((1..=panel.columns).map(load).collect(), red(panel.columns, panel.tracks, |column| usize::from(load(column))))
}

/// Operations on any bytes: what each is answered, and the panel after them.
pub fn panel(bytes: &[u8; PANEL], ops: &[Op]) -> (Vec<Edited>, Panel) {
    let mut panel = Panel::of(bytes);
    let one = |&op: &Op| {
        said(operate(&panel, op).map(|edited| {
            panel = edited;
            shown(&panel)
        }))
    };
    let edited = ops.iter().map(one).collect();
    (edited, panel)
}

/// Routing an edited list on P1 gives what its job file would give: rows 2, also for another N or T, 5 and 9.
pub fn panel_route(bytes: &[u8; PANEL], ops: &[Op], limit: u32, budget: u32, room: usize) -> Result<Verdict, Refusal> {
    let (_, panel) = panel(bytes, ops);
    let list: Vec<u8> = list_of(&panel).iter().flat_map(|c| [c.left, c.right, c.mark]).collect();
    let mut rows = part::rows(&list, limit);
    rows.insert(0, Row::new(2, || ((panel.columns, panel.tracks) != (30, 8)).then_some(0)));
    rows.push(Row::new(9, || too_short(room, list.len() / 3)));
    decide(&rows)?;
    route(&part::p1_job(&list, limit).encode(), budget, room)
}
