//! House part P1.

use super::rows::Row;
use crate::{records, Job, Track};

const P1_COLUMNS: u8 = 30;

/// Rows 2 and 5, over connection bytes and K.
pub fn rows(connections: &[u8], limit: u32) -> Vec<Row<'_>> {
    vec![
        Row::new(2, move || {
            let whole = connections.len() % 3 == 0;
            let within = connections.len() / 3 <= 64 && (1..=32).contains(&limit);
            (!whole || !within).then_some(0)
        }),
        Row::new(5, move || {
            let fine = |i: usize| {
                let c = records(connections)[i];
                1 <= c.left && c.left <= c.right && c.right <= P1_COLUMNS
            };
            (0..connections.len() / 3).find(|&i| !fine(i)).map(|i| i as u64 + 1)
        }),
    ]
}

/// P1 with the given connections: tracks 1–4, 5–6, and 7–8, which are performance tracks.
pub fn p1_job(connections: &[u8], limit: u32) -> Job {
    let track = |k: usize| match k {
        1..=4 => Track { performance: false, ends: vec![5, 10, 15, 20, 25, 30] },
        5..=6 => Track { performance: false, ends: vec![10, 20, 30] },
        _ => Track { performance: true, ends: vec![15, 30] },
    };
    Job { columns: P1_COLUMNS, limit: limit as u8, tracks: (1..=8).map(track).collect(), connections: records(connections) }
}
