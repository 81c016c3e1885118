//! The editor's panel in safe Rust. The twin has the library's algorithm: an edit walks the columns that change, and if its connection is a piece of a net
//! the list once, for how far the other pieces reach. A recount changes its list and counts everything again: column by column, which is what an editor does
//! first, or connection by connection, which is the quickest that we know.

#![forbid(unsafe_code)]

/// Left, right and mark.
pub type Record = [u8; 3];

const ROOM: usize = 64;
const COLUMNS: usize = 256;

/// N, the connections, of which the first `count` are there, and the loads.
#[derive(Clone, Copy)]
struct State {
    columns: u8,
    count: usize,
    list: [Record; ROOM],
    loads: [u8; COLUMNS],
}

impl State {
    fn new(columns: u8) -> State {
        State { columns, count: 0, list: [[0; 3]; ROOM], loads: [0; COLUMNS] }
    }

    fn good(&self, left: u64, right: u64) -> Option<(u8, u8)> {
        (1 <= left && left <= right && right <= u64::from(self.columns)).then_some((left as u8, right as u8))
    }

    /// The place of a connection, from 0.
    fn there(&self, number: u64) -> Option<usize> {
        (1 <= number && number <= self.count as u64).then(|| number as usize - 1)
    }

    fn append(&mut self, record: Record) {
        self.list[self.count] = record;
        self.count += 1;
    }

    fn close(&mut self, at: usize) {
        self.list.copy_within(at + 1..self.count, at);
        self.count -= 1;
    }
}

#[derive(Clone, Copy)]
pub struct Twin(State);

impl Twin {
    pub fn new(columns: u8) -> Twin {
        Twin(State::new(columns))
    }

    /// How far the pieces of the mark's net reach but the one at `but`, each set down at its left column or at `from` if that is later.
    fn reaches(&self, but: usize, from: usize, mark: u8) -> [u8; COLUMNS] {
        let mut reach = [0; COLUMNS];
        for (i, piece) in self.0.list[..self.0.count].iter().enumerate() {
            if i != but && piece[2] / 2 == mark / 2 {
                let at = usize::from(piece[0]).max(from);
                reach[at] = reach[at].max(piece[1]);
            }
        }
        reach
    }

    /// Turns the loads of the columns from `from` up to `to` where no other piece of the mark's net is.
    fn turn(&mut self, but: usize, mark: u8, from: usize, to: usize, turned: impl Fn(u8) -> u8) {
        if to <= from {
            return;
        }
        if mark / 2 == 0 {
            for load in &mut self.0.loads[from..to] {
                *load = turned(*load);
            }
            return;
        }
        let reach = self.reaches(but, from, mark);
        let mut far = 0;
        for ((x, load), &reach) in self.0.loads.iter_mut().enumerate().zip(&reach).take(to).skip(from) {
            far = far.max(usize::from(reach));
            if far < x {
                *load = turned(*load);
            }
        }
    }
}

fn up(load: u8) -> u8 {
    load.saturating_add(1)
}

fn down(load: u8) -> u8 {
    load.saturating_sub(1)
}

/// An editor's list; nothing where an edit is refused.
pub trait Panel: Copy {
    fn add(&mut self, left: u64, right: u64, mark: u8) -> Option<()>;
    fn drop(&mut self, number: u64) -> Option<()>;
    fn move_to(&mut self, number: u64, left: u64, right: u64) -> Option<()>;
    fn connection(&self, number: usize) -> Record;
    /// Of columns 1 to N.
    fn loads(&self) -> &[u8];
}

impl Panel for Twin {
    fn add(&mut self, left: u64, right: u64, mark: u8) -> Option<()> {
        if self.0.count >= ROOM {
            return None;
        }
        let (l, r) = self.0.good(left, right)?;
        self.turn(self.0.count, mark, usize::from(l), usize::from(r) + 1, up);
        self.0.append([l, r, mark]);
        Some(())
    }

    fn drop(&mut self, number: u64) -> Option<()> {
        let at = self.0.there(number)?;
        let [left, right, mark] = self.0.list[at];
        self.turn(at, mark, usize::from(left), usize::from(right) + 1, down);
        self.0.close(at);
        Some(())
    }

    fn move_to(&mut self, number: u64, left: u64, right: u64) -> Option<()> {
        let (l, r) = self.0.good(left, right)?;
        let at = self.0.there(number)?;
        let [old_left, old_right, mark] = self.0.list[at];
        let (from, to) = (usize::from(old_left), usize::from(old_right) + 1);
        let (new_from, new_to) = (usize::from(l), usize::from(r) + 1);
        self.turn(at, mark, from, to.min(new_from), down);
        self.turn(at, mark, from.max(new_to), to, down);
        self.turn(at, mark, new_from, new_to.min(from), up);
        self.turn(at, mark, new_from.max(to), new_to, up);
        self.0.list[at] = [l, r, mark];
        Some(())
    }

    fn connection(&self, number: usize) -> Record {
        self.0.list[number - 1]
    }

    fn loads(&self) -> &[u8] {
        &self.0.loads[1..=usize::from(self.0.columns)]
    }
}

/// All loads of a list.
type Count = fn(&[Record], u8) -> [u8; COLUMNS];

#[derive(Clone, Copy)]
pub struct Recount {
    state: State,
    count: Count,
}

impl Recount {
    pub fn new(columns: u8, count: Count) -> Recount {
        Recount { state: State::new(columns), count }
    }

    fn recount(&mut self) {
        self.state.loads = (self.count)(&self.state.list[..self.state.count], self.state.columns);
    }
}

/// For each column the nets that were seen over it, as bits.
pub fn by_column(list: &[Record], columns: u8) -> [u8; COLUMNS] {
    let mut loads = [0; COLUMNS];
    for x in 1..=columns {
        let (mut load, mut seen) = (0, 0u128);
        for &[left, right, mark] in list {
            let net = mark / 2;
            if left <= x && x <= right && (net == 0 || seen >> net & 1 == 0) {
                load += 1;
                seen |= 1 << net;
            }
        }
        loads[usize::from(x)] = load;
    }
    loads
}

/// For each connection its columns, and none of them asked where it is on its own.
pub fn by_connection(list: &[Record], _: u8) -> [u8; COLUMNS] {
    let (mut loads, mut seen) = ([0; COLUMNS], [0u128; COLUMNS]);
    for &[left, right, mark] in list {
        let columns = usize::from(left)..=usize::from(right);
        if mark / 2 == 0 {
            loads[columns].iter_mut().for_each(|load| *load += 1);
            continue;
        }
        let net = 1 << (mark / 2);
        for (load, seen) in loads[columns.clone()].iter_mut().zip(&mut seen[columns]) {
            *load += u8::from(*seen & net == 0);
            *seen |= net;
        }
    }
    loads
}

impl Panel for Recount {
    fn add(&mut self, left: u64, right: u64, mark: u8) -> Option<()> {
        if self.state.count >= ROOM {
            return None;
        }
        let (left, right) = self.state.good(left, right)?;
        self.state.append([left, right, mark]);
        self.recount();
        Some(())
    }

    fn drop(&mut self, number: u64) -> Option<()> {
        let at = self.state.there(number)?;
        self.state.close(at);
        self.recount();
        Some(())
    }

    fn move_to(&mut self, number: u64, left: u64, right: u64) -> Option<()> {
        let (left, right) = self.state.good(left, right)?;
        let at = self.state.there(number)?;
        self.state.list[at] = [left, right, self.state.list[at][2]];
        self.recount();
        Some(())
    }

    fn connection(&self, number: usize) -> Record {
        self.state.list[number - 1]
    }

    fn loads(&self) -> &[u8] {
        &self.state.loads[1..=usize::from(self.state.columns)]
    }
}

#[cfg(test)]
mod tests {
    use super::*;
    use second::fast::Kept;
    use second::make::{edits, Rng};
    use wire::{Op, Request};

    fn same(panel: &mut impl Panel, columns: u64, ops: &[Op]) {
        let mut kept = Kept::of(second::panel::Panel::empty(columns as u8, 1));
        for &op in ops {
            let done = match op {
                Op::Add { left, right, mark } => panel.add(left, right, mark),
                Op::Drop { number } => panel.drop(number),
                Op::Move { number, left, right } => panel.move_to(number, left, right),
                Op::Make { .. } | Op::Clear => continue,
            };
            assert_eq!(done.is_some(), kept.operate(op).is_ok(), "{op:?}");
            assert_eq!(panel.loads(), &kept.panel.loads[1..=columns as usize], "{op:?}");
        }
    }

    #[test]
    fn all_edit_as_the_second_router() {
        let mut rng = Rng::new(10);
        for asked in (0..3_000).flat_map(|_| edits(&mut rng)) {
            let Request::Edit { columns: columns @ 1..=255, ops, .. } = asked.request else { continue };
            same(&mut Twin::new(columns as u8), columns, &ops);
            same(&mut Recount::new(columns as u8, by_column), columns, &ops);
            same(&mut Recount::new(columns as u8, by_connection), columns, &ops);
        }
    }
}
