//! Trials and need, by enumerating and counting.

use super::channel::legal;
use crate::Job;

/// The first routing, if any, and the number of pairs that are counted.
#[derive(Clone, Debug, PartialEq, Eq)]
pub struct Need {
    pub first: Option<Vec<usize>>,
    pub pairs: u128,
}

/// All sequences of `length` labels, 1 to `tracks`, in track order.
fn sequences(tracks: usize, length: usize) -> Vec<Vec<usize>> {
    if length == 0 {
        return vec![Vec::new()];
    }
    let mut all = Vec::new();
    for shorter in sequences(tracks, length - 1) {
        for track in 1..=tracks {
            let mut longer = shorter.clone();
            longer.push(track);
            all.push(longer);
        }
    }
    all
}

/// The legal partial routings of the first `length` connections, in track order.
fn partial_routings(job: &Job, length: usize) -> Vec<Vec<usize>> {
    sequences(job.tracks.len(), length).into_iter().filter(|s| legal(job, s)).collect()
}

/// The routings, in track order.
pub fn routings(job: &Job) -> Vec<Vec<usize>> {
    partial_routings(job, job.connections.len())
}

pub fn first_routing(job: &Job) -> Option<Vec<usize>> {
    routings(job).into_iter().next()
}

/// Track order: the earlier has the smaller label at the first place of difference.
fn later(a: &[usize], b: &[usize]) -> bool {
    match (0..a.len()).find(|&i| a[i] != b[i]) {
        Some(i) => a[i] > b[i],
        None => false,
    }
}

/// The need: with no routing, all pairs of a legal partial routing shorter than M and a track; otherwise those whose extended sequence is not
/// later than the same-length beginning of the first routing.
pub fn need(job: &Job) -> Need {
    let first = first_routing(job);
    let mut pairs = 0;
    for length in 0..job.connections.len() {
        for partial in partial_routings(job, length) {
            for track in 1..=job.tracks.len() {
                let mut extended = partial.clone();
                extended.push(track);
                let counted = match &first {
                    None => true,
                    Some(first) => !later(&extended, &first[..length + 1]),
                };
                pairs += u128::from(counted);
            }
        }
    }
    Need { first, pairs }
}
