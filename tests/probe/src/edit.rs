//! Operations on the editor's panel: each is one call of an exported function, and what the panel shows after it.

use silienvo::{Panel, Refusal, Verdict};
use wire::{Answer, Edited, Op, PANEL};

/// Operations on an empty panel.
pub fn edit(columns: u64, tracks: u64, ops: &[Op]) -> Answer {
    match Panel::new(columns, tracks) {
        Err(refusal) => crate::refused(refusal, None),
        Ok(mut panel) => Answer::edited("", all(&mut panel, ops), None),
    }
}

/// Operations on lent bytes.
pub fn panel(bytes: &[u8; PANEL], ops: &[Op]) -> Answer {
    let mut panel = Panel::from_bytes(bytes);
    let edited = all(&mut panel, ops);
    Answer::edited("panel", edited, Some(panel.to_bytes().to_vec()))
}

/// Routing after operations on lent bytes.
pub fn route(bytes: &[u8; PANEL], ops: &[Op], limit: u32, budget: u32, labels: &mut [u8]) -> Result<Verdict, Refusal> {
    let mut panel = Panel::from_bytes(bytes);
    all(&mut panel, ops);
    panel.p1_route(limit, budget, labels)
}

fn all(panel: &mut Panel, ops: &[Op]) -> Vec<Edited> {
    ops.iter().map(|op| one(panel, op)).collect()
}

fn one(panel: &mut Panel, op: &Op) -> Edited {
    let result = match *op {
        Op::Make { columns, tracks } => panel.make(columns, tracks),
        Op::Clear => {
            panel.clear();
            Ok(())
        }
        Op::Add { left, right, mark } => panel.add(left, right, mark),
        Op::Drop { number } => panel.drop(number),
        Op::Move { number, left, right } => panel.move_to(number, left, right),
    };
    match result {
        Err(Refusal { number, place }) => Edited::Refused { number, place },
        Ok(()) => Edited::Done { loads: panel.loads().to_vec(), red: panel.red().unwrap_or(0) },
    }
}

#[cfg(test)]
mod tests {
    use super::*;
    use second::make::{edits, Rng};
    use wire::Request;

    /// The panel and the operations of a request; of what is not about a panel, none.
    fn asked(request: Request) -> Option<(Panel, Vec<Op>)> {
        match request {
            Request::Edit { columns, tracks, ops } => Some((Panel::new(columns, tracks).ok()?, ops)),
            Request::Panel { panel, ops } | Request::PanelRoute { panel, ops, .. } => Some((Panel::from_bytes(&panel), ops)),
            _ => None,
        }
    }

    #[test]
    fn a_refused_edit_changes_no_byte() {
        let mut rng = Rng::new(23);
        let mut by_number = [0; 12];
        for (mut panel, ops) in (0..4_000).flat_map(|_| edits(&mut rng)).filter_map(|one| asked(one.request)) {
            for op in ops {
                let before = panel.to_bytes();
                if let Edited::Refused { number, .. } = one(&mut panel, &op) {
                    assert_eq!(panel.to_bytes(), before, "{op:?}");
                    by_number[number as usize] += 1;
                }
            }
        }
        assert!([2, 5, 10].iter().all(|&number: &usize| by_number[number] > 100), "{by_number:?}");
    }
}
