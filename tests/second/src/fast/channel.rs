//! A job as words of bits: for each connection and track the segments that it would occupy, or 0 where the track is barred; and its net.

use crate::Job;

pub struct Channel {
    pub tracks: usize,
    pub connections: usize,
    masks: Vec<u32>,
    /// The mark bytes without their lowest bit: 0 for a connection on its own.
    nets: Vec<u8>,
}

impl Channel {
    pub fn of(job: &Job) -> Channel {
        let mut masks = vec![0; job.connections.len() * job.tracks.len()];
        for (k, track) in job.tracks.iter().enumerate() {
            // The segment of every column, from 0.
            let mut segment = [0u32; 256];
            for column in 1..=usize::from(job.columns) {
                let before = segment[column - 1];
                segment[column] = before + u32::from(column > 1 && track.ends[before as usize] as usize == column - 1);
            }
            for (m, c) in job.connections.iter().enumerate() {
                let (first, last) = (segment[c.left as usize], segment[c.right as usize]);
                let many = last - first + 1 > u32::from(job.limit);
                if !many && (c.mark & 1 == 0 || track.performance) {
                    masks[m * job.tracks.len() + k] = (u32::MAX >> (31 - (last - first))) << first;
                }
            }
        }
        let nets = job.connections.iter().map(|c| c.mark & !1).collect();
        Channel { tracks: job.tracks.len(), connections: job.connections.len(), masks, nets }
    }

    /// The segments that connection m would occupy on track k, both from 0; 0 where barred.
    pub fn mask(&self, m: usize, k: usize) -> u32 {
        self.masks[m * self.tracks + k]
    }

    /// The masks of connection m, from 0, on every track.
    pub fn masks(&self, m: usize) -> &[u32] {
        &self.masks[m * self.tracks..(m + 1) * self.tracks]
    }

    /// Whether connections m and n, from 0, must be kept off each other's segments: not if they are pieces of one net.
    pub fn apart(&self, m: usize, n: usize) -> bool {
        self.nets[m] == 0 || self.nets[m] != self.nets[n]
    }

    /// The connections that collide with connection m on track k, all from 0, as bits.
    pub fn rivals(&self, m: usize, k: usize) -> u64 {
        let own = self.mask(m, k);
        let rival = |&n: &usize| n != m && self.mask(n, k) & own != 0 && self.apart(m, n);
        (0..self.connections).filter(rival).map(|n| 1 << n).sum()
    }

    /// Bits to a code.
    pub fn width(&self) -> usize {
        (self.tracks.next_power_of_two().trailing_zeros() as usize).max(1)
    }
}
