//! Requests about a panel taken apart, so that each is one call of the library: one operation, or one routing.

use crate::fast::Kept;
use crate::kind::{kinds, of_a_sequence};
use crate::panel::{Panel, ROOM};
use crate::protocol::{answer, Way};
use crate::Connection;
use wire::{Answer, Edited, Op, Request, PANEL};

/// The calls of a request in order, each on the panel that those before it leave. A request about no panel is a call already.
pub fn calls(request: Request) -> Vec<Request> {
    let (mut panel, ops) = match &request {
        Request::Edit { columns, tracks, ops } => (Box::new([0; PANEL]), [&[Op::Make { columns: *columns, tracks: *tracks }], &ops[..]].concat()),
        Request::Panel { panel, ops } | Request::PanelRoute { panel, ops, .. } => (panel.clone(), ops.clone()),
        _ => return vec![request],
    };
    let mut calls = Vec::new();
    for op in ops {
        let call = Request::Panel { panel, ops: vec![op] };
        let after = answer(Way::Fast, call.clone()).buffer.and_then(|bytes| bytes.try_into().ok());
        panel = Box::new(after.expect("a panel's bytes"));
        calls.push(call);
    }
    if let Request::PanelRoute { limit, budget, labels, .. } = request {
        calls.push(Request::PanelRoute { panel, ops: vec![], limit, budget, labels });
    }
    calls
}

/// What an operation shows of its entry: its answer, by another piece and by the panel, and what is remarkable about its numbers, the loads and the list.
pub fn shows(panel: &[u8; PANEL], op: Op, said: &Answer) -> Vec<String> {
    let mut line = Vec::new();
    said.write(&mut line);
    let mut kinds = kinds(&Request::Panel { panel: Box::new(*panel), ops: vec![op] }, line.trim_ascii_end());
    let own = kinds.pop().unwrap_or_default();
    if let Some([Edited::Refused { number, .. }]) = said.edited.as_deref() {
        // A full list is refused before any number is looked at.
        return vec![if own.ends_with("full") { own } else { own + wrong(op, *number) }];
    }
    kinds.extend(at_a_limit(panel, op).into_iter().map(String::from));
    let word = own.trim_end_matches(", a piece");
    let shown = |kind: &String| kind.strip_prefix("done, ").map_or(format!("{word}, {kind}"), |done| format!("{own}, {done}"));
    kinds.iter().map(shown).collect()
}

/// Limits that an operation meets which is done, and whether its piece is over a column of a connection on its own.
fn at_a_limit(panel: &[u8; PANEL], op: Op) -> Vec<&'static str> {
    let mut list = Kept::of(Panel::of(panel)).list;
    let own = match op {
        Op::Make { columns, tracks } => return [(columns == 255, "N 255"), (tracks == 36, "T 36")].into_iter().filter_map(held).collect(),
        Op::Clear => return held((panel[0] != panel[1] && panel[1] != panel[2], "N, T and M differ")).into_iter().collect(),
        Op::Add { left, right, mark } => {
            list.push(Connection { left: left as u8, right: right as u8, mark });
            list[list.len() - 1]
        }
        Op::Drop { number } => list[number as usize - 1],
        Op::Move { number, left, right } => Connection { left: left as u8, right: right as u8, ..list[number as usize - 1] },
    };
    let first = matches!(op, Op::Drop { number: 1 } | Op::Move { number: 1, .. }) && list.len() > 1;
    let over_one = own.net() > 0 && list.iter().any(|other| other.net() == 0 && other.left <= own.right && own.left <= other.right);
    [(list.len() == ROOM, "M 64"), (panel[0] == 255, "N 255"), (over_one, "over one alone"), (first, "number 1")]
        .into_iter()
        .filter_map(held)
        .collect()
}

fn held((holds, words): (bool, &'static str)) -> Option<&'static str> {
    holds.then_some(words)
}

/// Which of N and T a panel of another part than P1 has, in words.
pub fn part(panel: &[u8; PANEL]) -> &'static str {
    match (panel[0], panel[1]) {
        (0..=29, _) => ", N below",
        (31.., _) => ", N above",
        (_, 0..=7) => ", T below",
        (_, 9..) => ", T above",
        _ => "",
    }
}

/// What the sign of a panel shows: its color, whether the column is the first or the last, and whether a sequence makes the panel.
pub fn shows_sign(panel: &[u8; PANEL], red: u64) -> String {
    let color = match red {
        0 => "green",
        1 => "red, column 1",
        _ if red == u64::from(panel[0]) => "red, column N",
        _ => "red",
    };
    let made = if of_a_sequence(&Kept::of(Panel::of(panel))) { "" } else { ", of no sequence" };
    format!("sign, {color}{made}")
}

/// What is wrong with the numbers of an operation that is refused by this row, in words.
fn wrong(op: Op, row: u32) -> &'static str {
    let most = match op {
        Op::Make { columns, tracks } => columns.max(tracks),
        Op::Clear => 0,
        Op::Add { left, right, .. } => left.max(right),
        Op::Drop { number } => number,
        Op::Move { number, left, right } => number.max(left).max(right),
    };
    match (row, op) {
        (2, Op::Make { columns: 0, .. }) => ", N 0",
        (2, Op::Make { columns: 1..=255, tracks: 0 }) => ", T 0",
        (2, Op::Make { columns: 1..=255, tracks: 37..=255 }) => ", T above 36",
        (2, Op::Make { columns: 1..=255, .. }) => ", T above a byte",
        _ if most > u64::from(u32::MAX) => ", above four bytes",
        _ if most > 255 => ", above a byte",
        (5, Op::Add { left: 0, .. } | Op::Move { left: 0, .. }) => ", left 0",
        (5, Op::Add { left, right, .. } | Op::Move { left, right, .. }) if right < left => ", right before left",
        (10, Op::Drop { number: 0 } | Op::Move { number: 0, .. }) => ", number 0",
        _ => "",
    }
}

#[cfg(test)]
mod tests {
    use super::*;
    use crate::make::{edits, Rng};

    /// What the last call leaves or answers.
    fn last(request: Request) -> Option<Answer> {
        calls(request).pop().map(|call| answer(Way::Slow, call))
    }

    #[test]
    fn the_calls_of_a_request_come_to_its_answer() {
        let mut rng = Rng::new(4);
        for request in (0..300).flat_map(|_| edits(&mut rng)).map(|asked| asked.request) {
            let whole = answer(Way::Fast, request.clone());
            match &request {
                Request::Panel { ops, .. } if !ops.is_empty() => {
                    let last = last(request).expect("a call");
                    assert_eq!((last.buffer, last.edited.unwrap().pop()), (whole.buffer, whole.edited.unwrap().pop()));
                }
                Request::Edit { ops, .. } if !ops.is_empty() && whole.edited.is_some() => {
                    assert_eq!(last(request).and_then(|last| last.edited?.pop()), whole.edited.unwrap().pop());
                }
                Request::PanelRoute { .. } => {
                    let call = calls(request).pop().expect("a call");
                    assert_eq!(answer(Way::Fast, call), whole);
                }
                _ => {}
            }
        }
    }
}
