//! House part P1, as a table of right ends and the start of each track in it.

use super::{file::connection, refuse};
use crate::Refusal;

const ENDS: [u8; 34] =
    [5, 10, 15, 20, 25, 30, 5, 10, 15, 20, 25, 30, 5, 10, 15, 20, 25, 30, 5, 10, 15, 20, 25, 30, 10, 20, 30, 10, 20, 30, 15, 30, 15, 30];
const STARTS: [usize; 9] = [0, 6, 12, 18, 24, 27, 30, 32, 34];

/// The job file of P1 with the given connection bytes.
pub fn p1(connections: &[u8], limit: u32) -> Result<Vec<u8>, Refusal> {
    if connections.len() % 3 != 0 || connections.len() > 192 || limit == 0 || limit > 32 {
        return refuse(2, 0);
    }
    for (i, bytes) in connections.chunks(3).enumerate() {
        if connection(bytes, 30).is_none() {
            return refuse(5, i as u64 + 1);
        }
    }
    let mut file = Vec::with_capacity(58 + connections.len());
    for k in 0..8 {
        let ends = &ENDS[STARTS[k]..STARTS[k + 1]];
        file.extend([ends.len() as u8, u8::from(k > 5)]);
        file.extend_from_slice(ends);
    }
    let (first, second) = (file.len() + connections.len(), connections.len());
    file.extend_from_slice(connections);
    file.extend([first as u8, (first >> 8) as u8, second as u8, (second >> 8) as u8]);
    file.extend([30, 8, (second / 3) as u8, limit as u8]);
    Ok(file)
}
