//! The editor's panel as its bytes are laid out. Nothing says here that its count or its loads are true.

use crate::{records, Connection};
use wire::PANEL;

/// The records that a panel has room for.
pub const ROOM: usize = 64;

#[derive(Clone, Debug, PartialEq, Eq)]
pub struct Panel {
    pub columns: u8,
    pub tracks: u8,
    pub count: u8,
    pub room: Vec<Connection>,
    /// Of columns 0 to 255.
    pub loads: Vec<u8>,
}

impl Panel {
    /// Zeros but for N and T.
    pub fn empty(columns: u8, tracks: u8) -> Panel {
        let mut bytes = [0; PANEL];
        [bytes[0], bytes[1]] = [columns, tracks];
        Panel::of(&bytes)
    }

    pub fn of(bytes: &[u8; PANEL]) -> Panel {
        let (list, loads) = bytes[3..].split_at(3 * ROOM);
        Panel { columns: bytes[0], tracks: bytes[1], count: bytes[2], room: records(list), loads: loads.to_vec() }
    }

    pub fn bytes(&self) -> Vec<u8> {
        let mut bytes = vec![self.columns, self.tracks, self.count];
        bytes.extend(self.room.iter().flat_map(|c| [c.left, c.right, c.mark]));
        bytes.extend(&self.loads);
        bytes
    }
}
