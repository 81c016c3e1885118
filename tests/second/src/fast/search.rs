//! The search that stops at the budget.

use super::Channel;
use crate::Verdict;

/// Tries the tracks of each connection in order, and goes back where none is left. A track that was tried is a trial.
pub fn search(channel: &Channel, budget: u32) -> Verdict {
    let (all, tracks) = (channel.connections, channel.tracks);
    let rivals: Vec<u64> = (0..all * tracks).map(|at| channel.rivals(at / tracks, at % tracks)).collect();
    // placed[k]: the connections on track k, as bits.
    let mut placed = vec![0u64; tracks];
    // tried[m]: how many tracks of connection m were tried; the last of them is its track.
    let mut tried: Vec<usize> = Vec::with_capacity(all);
    let mut trials = 0;
    if all > 0 {
        tried.push(0);
    }
    while let Some(m) = tried.len().checked_sub(1) {
        let k = tried[m];
        if k == tracks {
            tried.pop();
            match tried.last() {
                None => return Verdict::Unroutable { trials },
                Some(&next) => placed[next - 1] &= !(1 << (m - 1)),
            }
            continue;
        }
        if trials == u64::from(budget) {
            return Verdict::Undecided { trials };
        }
        trials += 1;
        tried[m] += 1;
        if channel.mask(m, k) != 0 && placed[k] & rivals[m * tracks + k] == 0 {
            placed[k] |= 1 << m;
            if tried.len() == all {
                break;
            }
            tried.push(0);
        }
    }
    Verdict::Routed { labels: tried.iter().map(|&n| n as u8).collect(), trials }
}
