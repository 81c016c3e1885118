//! Kinds of what operations on a panel are answered: each has its answer's kind, and what was remarkable about the panel or the list.

use crate::fast::Kept;
use crate::panel::{Panel, ROOM};
use crate::Connection;
use wire::{Op, Request};

/// The kinds of all operations of a request; none where it is not about a panel's operations.
pub fn kinds(request: &Request, answer: &str) -> Option<Vec<String>> {
    let (mut kept, ops, fields) = match request {
        Request::Edit { columns, tracks, ops } => {
            if answer.starts_with("refused ") {
                return Some(vec!["refused 2, sizes".to_string()]);
            }
            (Kept::of(Panel::empty(*columns as u8, *tracks as u8)), ops, answer)
        }
        Request::Panel { panel, ops } => (Kept::of(Panel::of(panel)), ops, answer.split(' ').nth(1).unwrap_or("")),
        _ => return None,
    };
    let mut all = Vec::new();
    if matches!(request, Request::Panel { .. }) && !ops.is_empty() {
        all.extend(of_bytes(&kept, ops[0]).into_iter().map(String::from));
    }
    for (&op, field) in ops.iter().zip(fields.split(',')) {
        let before = kept.clone();
        let _ = kept.operate(op);
        all.extend(kinds_of_one(op, field, &before, &kept));
    }
    Some(all)
}

fn kinds_of_one(op: Op, field: &str, before: &Kept, after: &Kept) -> Vec<String> {
    let Some(("ok", shown)) = field.split_once(':') else {
        let number = field.split(':').nth(1).unwrap_or("");
        return vec![format!("refused {number}, {}", if number == "10" { word(op) } else { refused(op, before) })];
    };
    let red = if shown.ends_with(":0") { "not red" } else { "red" };
    let piece = if beside_a_piece(op, before) || beside_a_piece(op, after) { ", a piece" } else { "" };
    vec![format!("done, {red}"), format!("{}{piece}", word(op))]
}

fn word(op: Op) -> &'static str {
    match op {
        Op::Make { .. } => "made",
        Op::Clear => "cleared",
        Op::Add { .. } => "added",
        Op::Drop { .. } => "dropped",
        Op::Move { .. } => "moved",
    }
}

fn refused(op: Op, before: &Kept) -> &'static str {
    match op {
        Op::Make { .. } => "sizes",
        Op::Add { .. } if before.list.len() == ROOM => "full",
        Op::Move { number, .. } if !(1..=before.list.len() as u64).contains(&number) => "moved, absent",
        _ => word(op),
    }
}

/// Whether the connection of an operation shares a column with another piece of its net: there the load does not follow it.
fn beside_a_piece(op: Op, kept: &Kept) -> bool {
    let at = match op {
        Op::Add { .. } => kept.list.len(),
        Op::Drop { number } | Op::Move { number, .. } => number as usize,
        Op::Make { .. } | Op::Clear => return false,
    };
    let Some(own) = at.checked_sub(1).and_then(|at| kept.list.get(at)) else { return false };
    let piece = |other: &Connection| other.net() == own.net() && other.left <= own.right && own.left <= other.right;
    own.net() > 0 && kept.list.iter().filter(|other| piece(other)).count() > 1
}

/// What is remarkable about lent bytes that an operation is done on.
fn of_bytes(kept: &Kept, op: Op) -> Vec<&'static str> {
    let mut after = kept.clone();
    if after.operate(op).is_err() {
        return vec![];
    }
    let cases = [
        ("done, of no sequence", !of_a_sequence(kept)),
        ("done, M above 64", usize::from(kept.panel.count) > ROOM),
        ("a load stays 255", stays(kept, &after, op, 255)),
        ("a load stays 0", stays(kept, &after, op, 0)),
    ];
    cases.into_iter().filter(|(_, holds)| *holds).map(|(case, _)| case).collect()
}

/// Whether a byte of this load would have moved if it could: it does where all loads are 100.
fn stays(before: &Kept, after: &Kept, op: Op, load: u8) -> bool {
    if matches!(op, Op::Make { .. } | Op::Clear) {
        return false;
    }
    let mut free = before.clone();
    free.panel.loads.fill(100);
    let _ = free.operate(op);
    let at = |kept: &Kept, column: usize| kept.panel.loads[column];
    (1..256).any(|column| at(&free, column) != 100 && [at(before, column), at(after, column)] == [load, load])
}

/// Whether adding the connections to an empty panel gives these loads.
pub fn of_a_sequence(kept: &Kept) -> bool {
    let mut panel = Kept::of(Panel::empty(kept.panel.columns, kept.panel.tracks));
    let added = |c: &Connection| panel.operate(Op::Add { left: c.left.into(), right: c.right.into(), mark: c.mark }).is_ok();
    kept.list.iter().all(added) && panel.panel.loads == kept.panel.loads
}
