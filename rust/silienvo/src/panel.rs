//! The panel of the editor: connections that are added, dropped and moved, and the load of each column beside them.

use crate::exports::{self, SilienvoPanel};
use crate::{kind, only, unlisted, verdict, Connection, Refusal, Verdict, MOST_CONNECTIONS};

/// The bytes of a panel.
pub const PANEL: usize = std::mem::size_of::<SilienvoPanel>();

/// A list of connections for N columns and T tracks, and for each column its load: how many distinct nets cross it. Pieces of one net over one column count
/// once, each connection of net 0 by itself. The loads are true after any sequence of edits. Connections are numbered from 1.
#[derive(Clone, Copy)]
pub struct Panel(SilienvoPanel);

impl Panel {
    /// A panel without connections.
    pub fn new(columns: u64, tracks: u64) -> Result<Panel, Refusal> {
        let mut panel = Panel::from_bytes(&[0; PANEL]);
        panel.make(columns, tracks)?;
        Ok(panel)
    }

    /// Any bytes are a panel.
    pub fn from_bytes(bytes: &[u8; PANEL]) -> Panel {
        // Bytes alone, one behind the other, and every value of each is good: both ways.
        unsafe { std::mem::transmute(*bytes) }
    }

    pub fn to_bytes(&self) -> [u8; PANEL] {
        unsafe { std::mem::transmute(self.0) }
    }

    /// Makes it one without connections, for these columns and tracks.
    pub fn make(&mut self, columns: u64, tracks: u64) -> Result<(), Refusal> {
        only(unsafe { exports::silienvo_panel_make(&mut self.0, columns, tracks) }).map(drop)
    }

    /// Drops all connections.
    pub fn clear(&mut self) {
        unsafe { exports::silienvo_panel_clear(&mut self.0) }
    }

    /// Appends a connection.
    pub fn add(&mut self, left: u64, right: u64, mark: u8) -> Result<(), Refusal> {
        only(unsafe { exports::silienvo_panel_add(&mut self.0, left, right, mark) }).map(drop)
    }

    /// Drops a connection and closes the gap.
    pub fn drop(&mut self, number: u64) -> Result<(), Refusal> {
        only(unsafe { exports::silienvo_panel_drop(&mut self.0, number) }).map(drop)
    }

    /// Gives a connection other columns; its number and its mark stay.
    pub fn move_to(&mut self, number: u64, left: u64, right: u64) -> Result<(), Refusal> {
        only(unsafe { exports::silienvo_panel_move(&mut self.0, number, left, right) }).map(drop)
    }

    /// The first column whose load exceeds T. Then no job with these columns, tracks and connections has a legal routing.
    pub fn red(&self) -> Option<u64> {
        let answer = unsafe { exports::silienvo_panel_red(&self.0) };
        match kind(&answer) {
            Ok(1) => None,
            Ok(2) => Some(answer.value),
            Ok(other) => unlisted(other),
            Err(_) => unlisted(0),
        }
    }

    pub fn columns(&self) -> u8 {
        self.0.columns
    }

    pub fn tracks(&self) -> u8 {
        self.0.tracks
    }

    /// The loads of columns 1 to N.
    pub fn loads(&self) -> &[u8] {
        &self.0.loads[1..=usize::from(self.0.columns)]
    }

    /// The connections, in the order of their numbers.
    pub fn connections(&self) -> &[Connection] {
        &self.0.list[..usize::from(self.0.connections).min(MOST_CONNECTIONS)]
    }

    /// Routes the connections on house part P1, if the panel has its columns and tracks.
    pub fn p1_route(&self, limit: u32, budget: u32, labels: &mut [u8]) -> Result<Verdict, Refusal> {
        verdict(unsafe { exports::silienvo_panel_p1_route(&self.0, limit, budget, labels.as_mut_ptr(), labels.len()) })
    }
}
