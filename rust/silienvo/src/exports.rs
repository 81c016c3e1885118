//! The exports as include/silienvo.h declares them.

/// `kind` 0: refused, by `number` at place `value`. Otherwise the entry's own list, and `value` is its trials or its length.
#[repr(C)]
pub struct SilienvoAnswer {
    pub kind: u32,
    pub number: u32,
    pub value: u64,
}

/// `kind` 0: refused, by `number` at `place`. 1: a job.
#[repr(C)]
pub struct SilienvoJob {
    pub kind: u32,
    pub number: u32,
    pub place: u64,
    pub columns: u32,
    pub tracks: u32,
    pub connections: u32,
    pub limit: u32,
    pub start: u64,
    pub length: u64,
}

/// A connection as the editor has it. Its mark is its net's number times 2, plus 1 if it is critical; net 0 is a connection on its own, 1 to 127 name a net.
#[repr(C)]
#[derive(Clone, Copy, Debug, PartialEq, Eq)]
pub struct SilienvoConnection {
    pub left: u8,
    pub right: u8,
    pub mark: u8,
}

/// The panel of the editor: N, T, M, the connections, of which the first M count, and the load of each column. Any bytes are one.
#[repr(C)]
#[derive(Clone, Copy)]
pub struct SilienvoPanel {
    pub columns: u8,
    pub tracks: u8,
    pub connections: u8,
    pub list: [SilienvoConnection; crate::MOST_CONNECTIONS],
    pub loads: [u8; 256],
}

extern "C" {
    pub fn silienvo_read(file: *const u8, file_len: usize) -> SilienvoJob;
    pub fn silienvo_route(file: *const u8, file_len: usize, budget: u32, labels: *mut u8, labels_len: usize) -> SilienvoAnswer;
    pub fn silienvo_judge(file: *const u8, file_len: usize, labels: *const u8, labels_len: usize) -> SilienvoAnswer;
    pub fn silienvo_rows(file: *const u8, file_len: usize, labels: *const u8, labels_len: usize, text: *mut u8, text_len: usize) -> SilienvoAnswer;
    pub fn silienvo_line(file: *const u8, file_len: usize, number: u64, buffer: *mut u8, buffer_len: usize) -> SilienvoAnswer;
    pub fn silienvo_reply(file: *const u8, file_len: usize, text: *const u8, text_len: usize, labels: *mut u8, labels_len: usize) -> SilienvoAnswer;
    pub fn silienvo_p1_write(connections: *const u8, connections_len: usize, limit: u32, buffer: *mut u8, buffer_len: usize) -> SilienvoAnswer;
    pub fn silienvo_p1_route(
        connections: *const SilienvoConnection,
        count: usize,
        limit: u32,
        budget: u32,
        labels: *mut u8,
        labels_len: usize,
    ) -> SilienvoAnswer;
    pub fn silienvo_panel_make(panel: *mut SilienvoPanel, columns: u64, tracks: u64) -> SilienvoAnswer;
    pub fn silienvo_panel_clear(panel: *mut SilienvoPanel);
    pub fn silienvo_panel_add(panel: *mut SilienvoPanel, left: u64, right: u64, mark: u8) -> SilienvoAnswer;
    pub fn silienvo_panel_drop(panel: *mut SilienvoPanel, number: u64) -> SilienvoAnswer;
    pub fn silienvo_panel_move(panel: *mut SilienvoPanel, number: u64, left: u64, right: u64) -> SilienvoAnswer;
    pub fn silienvo_panel_red(panel: *const SilienvoPanel) -> SilienvoAnswer;
    pub fn silienvo_panel_p1_route(panel: *const SilienvoPanel, limit: u32, budget: u32, labels: *mut u8, labels_len: usize) -> SilienvoAnswer;
}
