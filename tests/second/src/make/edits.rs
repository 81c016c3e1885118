//! Requests about the editor's panel: sequences from an empty list, panels of any bytes, and edited lists of house part P1 with what else routes them.

use super::requests::{budget, buffer, Asked};
use super::sequences::{any_habit, habit, made, sequence, Habit};
use super::{crowded, enumerated, Rng};
use crate::fast::{self, Channel, Kept};
use crate::panel::{Panel, ROOM};
use crate::protocol::Way;
use crate::Verdict;
use wire::{Op, Request, PANEL};

/// A sequence on an empty list, one in some hundred with an N or T that no panel has.
fn edit(rng: &mut Rng) -> Asked {
    let habit = any_habit(rng);
    let length = match rng.below(40) {
        0 => rng.from_to(100, 300),
        1..=5 => rng.from_to(30, 100),
        _ => rng.from_to(0, 20),
    };
    let ops = sequence(rng, &habit, &mut made(&habit), length);
    let (mut columns, mut tracks) = (habit.shape.columns as u64, habit.shape.tracks as u64);
    match rng.below(100) {
        0 | 1 => columns = rng.pick(&[0, 256, 257, 1 << 32, u64::MAX]),
        2 | 3 => tracks = rng.pick(&[0, 37, 256, 257, 1 << 32, u64::MAX]),
        _ => {}
    }
    let way = if length <= 20 { Way::Slow } else { Way::Fast };
    Asked { way, request: Request::Edit { columns, tracks, ops } }
}

/// A job's connections as they come: where a job has a routing its panel is not red.
fn job(rng: &mut Rng) -> Asked {
    let job = if rng.once_in(2) { crowded(rng) } else { enumerated(rng) };
    let ops = job.connections.iter().map(|c| Op::Add { left: c.left.into(), right: c.right.into(), mark: c.mark }).collect();
    Asked { way: Way::Slow, request: Request::Edit { columns: job.columns.into(), tracks: job.tracks.len() as u64, ops } }
}

/// A panel after a sequence; then, unless it stays so, with some bytes changed, or all.
fn lent(rng: &mut Rng, habit: &Habit) -> [u8; PANEL] {
    let mut kept = made(habit);
    let length = rng.from_to(0, 80);
    sequence(rng, habit, &mut kept, length);
    let mut bytes: [u8; PANEL] = kept.panel.bytes().try_into().expect("a panel's bytes");
    let loads = rng.pick(&[0, 1, 254, 255]);
    match rng.below(9) {
        0 => {}
        1 => bytes[3 + 3 * ROOM..].fill(loads),
        2 => bytes[2] = rng.pick(&[63, 64, 65, 128, 255]),
        3 | 4 => bytes.fill_with(|| rng.byte()),
        5 => {
            bytes[3 + 3 * ROOM] = rng.byte();
            for _ in 0..rng.from_to(1, 6) {
                let at = 3 + 3 * rng.below(usize::from(bytes[2]).clamp(1, ROOM));
                match rng.below(3) {
                    0 => bytes[at] = 0,
                    1 => bytes[at + 1] = 255,
                    _ => bytes.swap(at, at + 1),
                }
            }
        }
        _ => {
            for _ in 0..rng.from_to(1, 4) {
                let (list, load, any) = (3 + rng.below(3 * ROOM), 3 + 3 * ROOM + rng.below(256), rng.byte());
                bytes[rng.pick(&[0, 1, 2, list, list, load])] = rng.pick(&[0, 1, 64, 255, habit.shape.columns as u8, any]);
            }
        }
    }
    bytes
}

/// Operations on lent bytes, among them the making of another panel.
fn panel(rng: &mut Rng) -> Asked {
    let bytes = any_habit(rng);
    let bytes = lent(rng, &bytes);
    let mut kept = Kept::of(Panel::of(&bytes));
    let habit = habit(rng, usize::from(bytes[0].max(1)), 1);
    let length = rng.from_to(0, 12);
    let mut ops = sequence(rng, &habit, &mut kept, length);
    if rng.once_in(4) {
        let columns = rng.pick(&[0, 1, 30, 255, 256, 300, 1 << 32, u64::MAX]);
        let tracks = rng.pick(&[0, 1, 8, 36, 37, 256 + 8, 1 << 32, u64::MAX]);
        ops.insert(rng.below(ops.len() + 1), Op::Make { columns, tracks });
    }
    Asked { way: Way::Slow, request: Request::Panel { panel: Box::new(bytes), ops } }
}

/// An edited panel of P1, or of another part, or with bytes changed; the same connections by the editor's entry; and the job file with them.
fn part(rng: &mut Rng, out: &mut Vec<Asked>) {
    let sizes = if rng.once_in(8) { rng.pick(&[(30, 7), (29, 8), (31, 9), (8, 30), (30, 36), (255, 8)]) } else { (30, 8) };
    let habit = habit(rng, sizes.0, sizes.1);
    let mut panel = Box::new([0; PANEL]);
    let mut ops = vec![Op::Make { columns: sizes.0 as u64, tracks: sizes.1 as u64 }];
    if rng.once_in(4) {
        *panel = lent(rng, &habit);
        ops.clear();
    }
    let mut kept = made(&habit);
    if ops.is_empty() {
        kept = Kept::of(Panel::of(&panel));
    }
    let length = rng.pick(&[0, 2, 4, 6, 12, 30, 80]);
    ops.extend(sequence(rng, &habit, &mut kept, length));
    let connections: Vec<u8> = kept.list.iter().flat_map(|c| [c.left, c.right, c.mark]).collect();
    let limit = rng.pick(&[1, 2, 2, 3, 3, 4, 32, 0, 33, 256 + 2]);
    let file = fast::p1(&connections, limit, usize::MAX);
    let verdict = match file.as_ref().map(|file| fast::read(file)) {
        Ok(Ok(job)) => fast::search(&Channel::of(&job), rng.pick(&[200, 3_000, 30_000])),
        _ => Verdict::Undecided { trials: 9 },
    };
    let (budget, labels) = (budget(rng, &verdict), buffer(rng, kept.list.len()));
    let way = if kept.list.len() <= 3 { Way::Slow } else { Way::Fast };
    out.push(Asked { way, request: Request::PanelRoute { panel, ops, limit, budget, labels: labels.clone() } });
    out.push(Asked { way, request: Request::P1Route { connections, limit, budget, labels: labels.clone() } });
    if let Ok(file) = file {
        out.push(Asked { way, request: Request::Route { file, budget, labels } });
    }
}

/// The next requests about panels.
pub fn edits(rng: &mut Rng) -> Vec<Asked> {
    let mut out = Vec::new();
    match rng.below(10) {
        0..=3 => out.push(edit(rng)),
        4 => out.push(job(rng)),
        5..=7 => out.push(panel(rng)),
        _ => part(rng, &mut out),
    }
    out
}
