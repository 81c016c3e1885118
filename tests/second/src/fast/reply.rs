//! A solver's reply, byte by byte.

use super::{clauses::first_false, refuse, Channel};
use crate::{Refusal, Replied};

const STATUS: [&[u8]; 3] = [b"s SATISFIABLE", b"s UNSATISFIABLE", b"s UNKNOWN"];

/// The place reached in a line.
#[derive(Clone, Copy)]
enum At {
    Start,
    Letter,
    Comment,
    /// In a status line: the place in it, and one of the words that fit so far.
    Status(usize, usize),
    Values,
    Blank,
    Minus,
    Zero,
    Digits {
        count: u32,
        variable: usize,
        plain: bool,
    },
    Wrong,
}

struct Reader {
    variables: usize,
    line: u64,
    wrong: Option<u64>,
    statuses: [u32; 3],
    values: bool,
    zeros: u32,
    after_zero: bool,
    before_zero: u64,
    row_7: Option<u64>,
    /// 0 for a variable that was not seen, 1 for false, 2 for true.
    model: Vec<u8>,
}

impl Reader {
    fn step(&mut self, at: At, byte: u8) -> At {
        match (at, byte) {
            (At::Start, b'c') => At::Letter,
            (At::Start, b's') => At::Status(1, 0),
            (At::Start, b'v') => At::Values,
            (At::Letter, b' ') | (At::Comment, _) => At::Comment,
            (At::Status(place, from), _) => match (from..3).find(|&word| STATUS[word].get(place) == Some(&byte)) {
                // Two words that agree so far agree in all bytes before, so the first that fits will do.
                Some(word) if STATUS[word][..place] == STATUS[from][..place] => At::Status(place + 1, word),
                _ => At::Wrong,
            },
            (At::Values, b' ') => At::Blank,
            (At::Blank, b'0') => At::Zero,
            (At::Blank, b'-') => At::Minus,
            (At::Blank | At::Minus, b'1'..=b'9') => At::Digits { count: 1, variable: usize::from(byte - b'0'), plain: matches!(at, At::Blank) },
            (At::Digits { count: 1 | 2, .. }, b'0'..=b'9') => {
                let At::Digits { count, variable, plain } = at else { return At::Wrong };
                At::Digits { count: count + 1, variable: 10 * variable + usize::from(byte - b'0'), plain }
            }
            (At::Zero | At::Digits { .. }, b' ') => {
                self.literal(at);
                At::Blank
            }
            _ => At::Wrong,
        }
    }

    fn literal(&mut self, at: At) {
        self.values = true;
        self.after_zero = self.zeros > 0;
        match at {
            At::Digits { variable, plain, .. } => {
                self.before_zero += 1;
                if variable > self.variables || self.model[variable] != 0 {
                    self.row_7.get_or_insert(self.before_zero);
                } else {
                    self.model[variable] = 1 + u8::from(plain);
                }
            }
            _ => {
                self.after_zero = false;
                self.zeros += 1;
            }
        }
    }

    fn end_of_line(&mut self, at: At) {
        self.line += 1;
        match at {
            At::Start | At::Letter | At::Comment => {}
            At::Status(place, word) if place == STATUS[word].len() => self.statuses[word] += 1,
            At::Zero | At::Digits { .. } => self.literal(at),
            _ => {
                self.wrong.get_or_insert(self.line);
            }
        }
    }
}

pub fn read(channel: &Channel, text: &[u8]) -> Result<Replied, Refusal> {
    let variables = channel.connections * channel.width();
    let mut reader = Reader {
        variables,
        line: 0,
        wrong: None,
        statuses: [0; 3],
        values: false,
        zeros: 0,
        after_zero: false,
        before_zero: 0,
        row_7: None,
        model: vec![0; variables + 1],
    };
    let mut at = At::Start;
    let mut open = false;
    for &byte in text {
        open = byte != b'\n';
        if open {
            at = reader.step(at, byte);
        } else {
            reader.end_of_line(at);
            at = At::Start;
        }
    }
    if open {
        reader.end_of_line(at);
    }
    answer(channel, &reader)
}

fn answer(channel: &Channel, reader: &Reader) -> Result<Replied, Refusal> {
    if let Some(line) = reader.wrong {
        return refuse(6, line);
    }
    match (reader.statuses, reader.values) {
        ([0, 1, 0], false) => return Ok(Replied::Claimed),
        ([0, 0, 1], false) => return Ok(Replied::Unknown),
        ([1, 0, 0], true) if reader.zeros == 1 && !reader.after_zero => {}
        _ => return refuse(6, 0),
    }
    if let Some(place) = reader.row_7 {
        return refuse(7, place);
    }
    if reader.before_zero < reader.variables as u64 {
        return refuse(7, reader.before_zero + 1);
    }
    let code = |bits: &[u8]| bits.iter().fold(0, |code, &bit| code << 1 | usize::from(bit == 2));
    let codes: Vec<usize> = reader.model[1..].chunks(channel.width()).map(code).collect();
    match first_false(channel, &codes) {
        Some(clause) => refuse(8, clause),
        None => Ok(Replied::Accepted { labels: codes.iter().map(|&code| code as u8 + 1).collect() }),
    }
}
