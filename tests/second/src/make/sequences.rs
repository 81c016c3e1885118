//! Sequences of operations on the editor's panel: good ones, and those that are refused.

use super::jobs::{connection, Shape};
use super::Rng;
use crate::fast::Kept;
use crate::panel::{Panel, ROOM};
use crate::Connection;
use wire::Op;

/// What a sequence likes: the sizes of its panel and its connections, their marks, and whether it fills the list first.
pub struct Habit {
    pub shape: Shape,
    marks: Vec<u8>,
    fills: bool,
}

/// Connections on their own; few nets with many pieces; both; any bytes.
fn marks(rng: &mut Rng) -> Vec<u8> {
    let nets: Vec<u8> = (0..rng.from_to(1, 3)).map(|_| rng.from_to(1, 127) as u8).flat_map(|net| [2 * net, 2 * net + 1]).collect();
    match rng.below(6) {
        0 => vec![0, 0, 1],
        1 => [&nets[..], &[0, 1]].concat(),
        2 => (0..=255).collect(),
        _ => nets,
    }
}

pub fn habit(rng: &mut Rng, columns: usize, tracks: usize) -> Habit {
    let span = rng.pick(&[1, 2, 4, 10, 40, columns]).min(columns);
    Habit { shape: Shape { columns, tracks, connections: 0, limit: 1, segments: 1, span, critical: 0 }, marks: marks(rng), fills: rng.once_in(4) }
}

pub fn any_habit(rng: &mut Rng) -> Habit {
    let columns = match rng.below(12) {
        0 => 1,
        1 => rng.pick(&[254, 255]),
        2 => rng.from_to(1, 255),
        _ => rng.from_to(2, 24),
    };
    let tracks = rng.pick(&[1, 1, 2, 3, 5, 8, 20, 36]);
    habit(rng, columns, tracks)
}

/// A number that no connection of so many has; some have the last byte of one that is there.
fn absent(rng: &mut Rng, count: usize) -> u64 {
    let count = count as u64;
    match rng.below(6) {
        0 | 1 => 0,
        2 | 3 => count + 1,
        4 => rng.pick(&[256, 1 << 16, 1 << 32, 1 << 63]) + rng.below(count as usize + 1) as u64,
        _ => u64::MAX - rng.below(3) as u64,
    }
}

/// Columns that are bad in one way or more; some have the last byte of good ones.
fn bad(rng: &mut Rng, shape: &Shape) -> (u64, u64) {
    let good = connection(rng, shape);
    let (left, right, last) = (u64::from(good.left), u64::from(good.right), shape.columns as u64);
    match rng.below(8) {
        0 => (0, right),
        1 => (left, last + 1),
        2 => (right + 1, right),
        3 => (left, rng.pick(&[256, 300, u64::MAX])),
        4 => (left, right + 256),
        5 => (left + (1 << 32), right + (1 << 32)),
        6 => (right + 256, right),
        _ => (0, 0),
    }
}

/// Where a connection is moved to: anywhere, one column on, where it is, or where another is.
fn target(rng: &mut Rng, shape: &Shape, list: &[Connection], from: Connection) -> (u64, u64) {
    let to = match rng.below(6) {
        0 if usize::from(from.right) < shape.columns => Connection { left: from.left.saturating_add(1), right: from.right + 1, mark: 0 },
        1 if from.left > 1 => Connection { left: from.left - 1, ..from },
        2 => from,
        3 => rng.pick(list),
        _ => connection(rng, shape),
    };
    (u64::from(to.left), u64::from(to.right))
}

fn add(rng: &mut Rng, habit: &Habit) -> Op {
    let good = connection(rng, &habit.shape);
    Op::Add { left: u64::from(good.left), right: u64::from(good.right), mark: rng.pick(&habit.marks) }
}

/// An operation that is refused, for one reason or two, unless what is lent is odd.
fn refused(rng: &mut Rng, habit: &Habit, count: usize) -> Op {
    let (left, right) = bad(rng, &habit.shape);
    let good = connection(rng, &habit.shape);
    match rng.below(5) {
        0 => Op::Add { left, right, mark: rng.pick(&habit.marks) },
        1 => Op::Drop { number: absent(rng, count) },
        2 => Op::Move { number: absent(rng, count), left: u64::from(good.left), right: u64::from(good.right) },
        3 => Op::Move { number: absent(rng, count), left, right },
        _ => Op::Move { number: rng.below(count + 1) as u64, left, right },
    }
}

fn operation(rng: &mut Rng, habit: &Habit, list: &[Connection]) -> Op {
    let (kind, some) = (rng.below(100), !list.is_empty());
    match kind {
        0..=11 => refused(rng, habit, list.len()),
        12 if rng.once_in(2) => Op::Clear,
        13..=34 if some && !(habit.fills && list.len() < ROOM) => Op::Drop { number: rng.from_to(1, list.len()) as u64 },
        35..=64 if some => {
            let at = rng.below(list.len());
            let (left, right) = target(rng, &habit.shape, list, list[at]);
            Op::Move { number: at as u64 + 1, left, right }
        }
        _ => add(rng, habit),
    }
}

/// Operations one after another, each made for the list that those before it leave.
pub fn sequence(rng: &mut Rng, habit: &Habit, kept: &mut Kept, length: usize) -> Vec<Op> {
    let next = |_| {
        let op = operation(rng, habit, &kept.list);
        let _ = kept.operate(op);
        op
    };
    (0..length).map(next).collect()
}

/// The empty panel of a habit.
pub fn made(habit: &Habit) -> Kept {
    Kept::of(Panel::empty(habit.shape.columns as u8, habit.shape.tracks as u8))
}
