//! The editor's panel with loads that are carried along. A net's columns are bits, and an edit changes the loads where its net gains or loses a column.

use super::{p1_route, refuse};
use crate::panel::{Panel, ROOM};
use crate::{Connection, Refusal, Verdict};
use wire::{Edited, Op, PANEL};

/// Columns 1 to 255 as the bits of four words.
#[derive(Clone, Copy, Default)]
struct Columns([u64; 4]);

impl Columns {
    /// All columns below n.
    fn below(n: u32) -> Columns {
        let word = |w: u32| match n.saturating_sub(64 * w) {
            0 => 0,
            bits => u64::MAX >> (64 - bits.min(64)),
        };
        Columns([word(0) & !1, word(1), word(2), word(3)])
    }

    fn of(c: &Connection) -> Columns {
        Columns::below(u32::from(c.right) + 1).without(Columns::below(u32::from(c.left)))
    }

    fn without(self, other: Columns) -> Columns {
        Columns([0, 1, 2, 3].map(|w| self.0[w] & !other.0[w]))
    }

    fn with(self, other: Columns) -> Columns {
        Columns([0, 1, 2, 3].map(|w| self.0[w] | other.0[w]))
    }

    fn each(self) -> impl Iterator<Item = usize> {
        (0..256).filter(move |column| self.0[column / 64] >> (column % 64) & 1 == 1)
    }
}

/// A panel that is being edited.
#[derive(Clone)]
pub struct Kept {
    pub panel: Panel,
    pub list: Vec<Connection>,
}

impl Kept {
    pub fn of(panel: Panel) -> Kept {
        let list = panel.room[..usize::from(panel.count).min(ROOM)].to_vec();
        Kept { panel, list }
    }

    /// The columns of all pieces of a mark's net; those of the connection alone where it is on its own.
    fn columns(&self, mark: u8, alone: Option<&Connection>) -> Columns {
        let none = Columns::default();
        if mark < 2 {
            return alone.map_or(none, Columns::of);
        }
        self.list.iter().filter(|c| c.mark | 1 == mark | 1).fold(none, |all, c| all.with(Columns::of(c)))
    }

    fn step(&mut self, before: Columns, after: Columns) {
        for column in after.without(before).each() {
            self.panel.loads[column] = self.panel.loads[column].saturating_add(1);
        }
        for column in before.without(after).each() {
            self.panel.loads[column] = self.panel.loads[column].saturating_sub(1);
        }
    }

    /// The place of a connection in the list, from 0.
    fn find(&self, number: u64) -> Result<usize, Refusal> {
        let at = usize::try_from(number).ok().and_then(|number| number.checked_sub(1));
        at.filter(|&at| at < self.list.len()).map_or(refuse(10, 0), Ok)
    }

    /// Columns that are good for this panel.
    fn good(&self, left: u64, right: u64, place: u64) -> Result<(u8, u8), Refusal> {
        match (u8::try_from(left), u8::try_from(right)) {
            (Ok(l), Ok(r)) if l > 0 && r >= l && self.panel.columns >= r => Ok((l, r)),
            _ => refuse(5, place),
        }
    }

    fn add(&mut self, left: u64, right: u64, mark: u8) -> Result<(), Refusal> {
        if self.list.len() >= ROOM {
            return refuse(2, 0);
        }
        let (left, right) = self.good(left, right, self.list.len() as u64 + 1)?;
        let added = Connection { left, right, mark };
        let before = self.columns(mark, None);
        self.list.push(added);
        self.step(before, self.columns(mark, Some(&added)));
        Ok(())
    }

    fn drop(&mut self, number: u64) -> Result<(), Refusal> {
        let at = self.find(number)?;
        let before = self.columns(self.list[at].mark, Some(&self.list[at]));
        let dropped = self.list.remove(at);
        self.step(before, self.columns(dropped.mark, None));
        Ok(())
    }

    fn place(&mut self, number: u64, left: u64, right: u64) -> Result<(), Refusal> {
        let (left, right) = self.good(left, right, number)?;
        let at = self.find(number)?;
        let mark = self.list[at].mark;
        let before = self.columns(mark, Some(&self.list[at]));
        self.list[at] = Connection { left, right, mark };
        self.step(before, self.columns(mark, Some(&self.list[at])));
        Ok(())
    }

    /// One operation. The bytes behind the list stay.
    pub fn operate(&mut self, op: Op) -> Result<(), Refusal> {
        match op {
            Op::Make { columns, tracks } => match (u8::try_from(columns), u8::try_from(tracks)) {
                (Ok(n @ 1..), Ok(t @ 1..=36)) => *self = Kept::of(Panel::empty(n, t)),
                _ => return refuse(2, 0),
            },
            Op::Clear => *self = Kept::of(Panel::empty(self.panel.columns, self.panel.tracks)),
            Op::Add { left, right, mark } => self.add(left, right, mark)?,
            Op::Drop { number } => self.drop(number)?,
            Op::Move { number, left, right } => self.place(number, left, right)?,
        }
        self.panel.count = self.list.len() as u8;
        self.panel.room[..self.list.len()].copy_from_slice(&self.list);
        Ok(())
    }

    fn edited(&mut self, op: Op) -> Edited {
        match self.operate(op) {
            Err(Refusal { number, place }) => Edited::Refused { number, place },
            Ok(()) => {
                let loads = self.panel.loads[1..=usize::from(self.panel.columns)].to_vec();
                let red = loads.iter().position(|&load| load > self.panel.tracks).map_or(0, |at| at as u64 + 1);
                Edited::Done { loads, red }
            }
        }
    }
}

pub fn edit(columns: u64, tracks: u64, ops: &[Op]) -> Result<Vec<Edited>, Refusal> {
    let mut kept = Kept::of(Panel::empty(0, 0));
    kept.operate(Op::Make { columns, tracks })?;
    Ok(ops.iter().map(|&op| kept.edited(op)).collect())
}

pub fn panel(bytes: &[u8; PANEL], ops: &[Op]) -> (Vec<Edited>, Panel) {
    let mut kept = Kept::of(Panel::of(bytes));
    let edited = ops.iter().map(|&op| kept.edited(op)).collect();
    (edited, kept.panel)
}

pub fn panel_route(bytes: &[u8; PANEL], ops: &[Op], limit: u32, budget: u32, room: usize) -> Result<Verdict, Refusal> {
    let mut kept = Kept::of(Panel::of(bytes));
    for &op in ops {
        let _ = kept.operate(op);
    }
    if kept.panel.columns != 30 || kept.panel.tracks != 8 {
        return refuse(2, 0);
    }
    p1_route(&kept.list, limit, budget, room)
}
