//! Clauses by counting: which clause a number names, and which clause a model makes false first, without a list.

use super::Channel;
use std::io::Write;

/// A clause forbids a code of one connection, or one code of two; connections from 0.
enum Clause {
    One { m: usize, code: usize },
    Two { m: usize, n: usize, code: usize },
}

/// Clauses of the first group that a connection has.
fn surplus(channel: &Channel) -> usize {
    (1 << channel.width()) - channel.tracks
}

/// The tracks, from 0, on which two connections have a clause.
fn colliding<'a>(channel: &'a Channel, m: usize, n: usize) -> impl Iterator<Item = usize> + 'a {
    let tracks = if channel.apart(m, n) { channel.tracks } else { 0 };
    channel.masks(m).iter().zip(channel.masks(n)).take(tracks).enumerate().filter(|(_, (&a, &b))| a & b != 0).map(|(k, _)| k)
}

fn barred(channel: &Channel, m: usize) -> impl Iterator<Item = usize> + '_ {
    channel.masks(m).iter().enumerate().filter(|(_, &mask)| mask == 0).map(|(k, _)| k)
}

/// C.
pub fn count(channel: &Channel) -> usize {
    let all = channel.connections;
    let ones: usize = (0..all).map(|m| surplus(channel) + barred(channel, m).count()).sum();
    let twos: usize = (0..all).map(|m| (m + 1..all).map(|n| colliding(channel, m, n).count()).sum::<usize>()).sum();
    ones + twos
}

/// The clause of a number, from 1.
fn clause(channel: &Channel, number: u64) -> Option<Clause> {
    let all = channel.connections;
    let mut left = usize::try_from(number.checked_sub(1)?).ok()?;
    let surplus = surplus(channel);
    if left < all * surplus {
        return Some(Clause::One { m: left / surplus, code: channel.tracks + left % surplus });
    }
    left -= all * surplus;
    for m in 0..all {
        let here = barred(channel, m).count();
        if left < here {
            return barred(channel, m).nth(left).map(|code| Clause::One { m, code });
        }
        left -= here;
    }
    for m in 0..all {
        for n in m + 1..all {
            let here = colliding(channel, m, n).count();
            if left < here {
                return colliding(channel, m, n).nth(left).map(|code| Clause::Two { m, n, code });
            }
            left -= here;
        }
    }
    None
}

/// The text of a line, LF included.
pub fn text(channel: &Channel, number: u64) -> Option<Vec<u8>> {
    let w = channel.width();
    let mut out = Vec::with_capacity(62);
    let forbid = |out: &mut Vec<u8>, m: usize, code: usize| {
        for b in 0..w {
            let sign = if code >> (w - 1 - b) & 1 == 1 { "-" } else { "" };
            write!(out, "{sign}{} ", m * w + b + 1).expect("a write to memory");
        }
    };
    if number == 0 {
        write!(out, "p cnf {} {}", channel.connections * w, count(channel)).expect("a write to memory");
    } else {
        match clause(channel, number)? {
            Clause::One { m, code } => forbid(&mut out, m, code),
            Clause::Two { m, n, code } => {
                forbid(&mut out, m, code);
                forbid(&mut out, n, code);
            }
        }
        out.push(b'0');
    }
    out.push(b'\n');
    Some(out)
}

/// The number of the first clause that the codes make false.
pub fn first_false(channel: &Channel, codes: &[usize]) -> Option<u64> {
    let surplus = surplus(channel);
    if let Some(m) = codes.iter().position(|&code| code >= channel.tracks) {
        return Some((m * surplus + codes[m] - channel.tracks + 1) as u64);
    }
    let mut number = codes.len() * surplus;
    for (m, &code) in codes.iter().enumerate() {
        if let Some(i) = barred(channel, m).position(|k| k == code) {
            return Some((number + i + 1) as u64);
        }
        number += barred(channel, m).count();
    }
    for m in 0..codes.len() {
        for n in m + 1..codes.len() {
            if codes[m] == codes[n] {
                if let Some(i) = colliding(channel, m, n).position(|k| k == codes[m]) {
                    return Some((number + i + 1) as u64);
                }
            }
            number += colliding(channel, m, n).count();
        }
    }
    None
}
