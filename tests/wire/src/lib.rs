//! The line protocol that the probe speaks: one request a line, one answer a line.
//!
//! Fields are separated by one blank. Bytes are lower-case hex, two digits a byte, and the empty byte string is `-`. Numbers are decimal.
//! Nothing here knows a rule of the product: a line becomes a `Request`, an `Answer` becomes a line, and `serve` joins the two.
//!
//! Beside `edit`, whose panel starts empty, two ops lend a panel's bytes: `panel PANEL OPS`, answered by `panel FIELDS PANEL`, a field for each operation and
//! the panel after all of them; and `panelroute PANEL OPS K BUDGET BUF`, which routes the edited list on house part P1 and is answered as `p1route`.

mod edit;
mod serve;

pub use edit::{Edited, Op, PANEL};
pub use serve::{answer_line, serve};

/// A request of the protocol. Every lent buffer is here as it is before the call.
#[derive(Clone, Debug, PartialEq, Eq)]
pub enum Request {
    Read { file: Vec<u8> },
    Route { file: Vec<u8>, budget: u32, labels: Vec<u8> },
    Judge { file: Vec<u8>, labels: Vec<u8> },
    Line { file: Vec<u8>, number: u64, buffer: Vec<u8> },
    Reply { file: Vec<u8>, text: Vec<u8>, labels: Vec<u8> },
    P1 { connections: Vec<u8>, limit: u32, buffer: Vec<u8> },
    P1Route { connections: Vec<u8>, limit: u32, budget: u32, labels: Vec<u8> },
    Program { input: Vec<u8> },
    Edit { columns: u64, tracks: u64, ops: Vec<Op> },
    Panel { panel: Box<[u8; PANEL]>, ops: Vec<Op> },
    PanelRoute { panel: Box<[u8; PANEL]>, ops: Vec<Op>, limit: u32, budget: u32, labels: Vec<u8> },
}

/// What is answered to a line that is no request for this library.
#[derive(Clone, Copy, Debug, PartialEq, Eq)]
pub enum Bad {
    /// The line is not of the protocol.
    Protocol,
    /// The op is of the protocol, but the library does not have it.
    NoSuchOp,
}

/// An answer: a word, its numbers, and the whole lent buffer after the call where the op lends one.
/// The program op has no word: its answer is bytes alone. Nor has `edit`: its answer is what each operation is answered.
#[derive(Clone, Debug, PartialEq, Eq)]
pub struct Answer {
    pub word: &'static str,
    pub numbers: Vec<u64>,
    pub edited: Option<Vec<Edited>>,
    pub buffer: Option<Vec<u8>>,
}

/// Ops of the protocol that belong to later requests.
const LATER: [&[u8]; 8] = [b"sheet", b"p2", b"p2route", b"burn", b"mend", b"fewest", b"single", b"dogleg"];

impl Request {
    /// The op's word.
    pub fn op(&self) -> &'static str {
        match self {
            Request::Read { .. } => "read",
            Request::Route { .. } => "route",
            Request::Judge { .. } => "judge",
            Request::Line { .. } => "line",
            Request::Reply { .. } => "reply",
            Request::P1 { .. } => "p1",
            Request::P1Route { .. } => "p1route",
            Request::Program { .. } => "program",
            Request::Edit { .. } => "edit",
            Request::Panel { .. } => "panel",
            Request::PanelRoute { .. } => "panelroute",
        }
    }

    /// Reads a line, given without its LF.
    pub fn parse(line: &[u8]) -> Result<Request, Bad> {
        let fields: Vec<&[u8]> = line.split(|&b| b == b' ').collect();
        if LATER.contains(&fields[0]) {
            return Err(Bad::NoSuchOp);
        }
        Request::of_fields(&fields).ok_or(Bad::Protocol)
    }

    fn of_fields(fields: &[&[u8]]) -> Option<Request> {
        Some(match fields {
            [b"read", file] => Request::Read { file: bytes(file)? },
            [b"route", file, budget, labels] => Request::Route { file: bytes(file)?, budget: number32(budget)?, labels: bytes(labels)? },
            [b"judge", file, labels] => Request::Judge { file: bytes(file)?, labels: bytes(labels)? },
            [b"line", file, number, buffer] => Request::Line { file: bytes(file)?, number: number64(number)?, buffer: bytes(buffer)? },
            [b"reply", file, text, labels] => Request::Reply { file: bytes(file)?, text: bytes(text)?, labels: bytes(labels)? },
            [b"p1", connections, limit, buffer] => Request::P1 { connections: bytes(connections)?, limit: number32(limit)?, buffer: bytes(buffer)? },
            [b"p1route", connections, limit, budget, labels] => {
                let connections = bytes(connections)?;
                if connections.len() % 3 != 0 {
                    return None;
                }
                Request::P1Route { connections, limit: number32(limit)?, budget: number32(budget)?, labels: bytes(labels)? }
            }
            [b"program", input] => Request::Program { input: bytes(input)? },
            [b"edit", columns, tracks, ops] => Request::Edit { columns: number64(columns)?, tracks: number64(tracks)?, ops: edit::edits(ops)? },
            [b"panel", panel, ops] => Request::Panel { panel: lent(panel)?, ops: edit::ops(ops)? },
            [b"panelroute", panel, ops, limit, budget, labels] => Request::PanelRoute {
                panel: lent(panel)?,
                ops: edit::ops(ops)?,
                limit: number32(limit)?,
                budget: number32(budget)?,
                labels: bytes(labels)?,
            },
            _ => return None,
        })
    }

    /// Writes the request as a line, LF included.
    pub fn write(&self, out: &mut Vec<u8>) {
        out.extend_from_slice(self.op().as_bytes());
        match self {
            Request::Read { file } => field(out, file),
            Request::Route { file, budget, labels } => {
                field(out, file);
                decimal(out, u64::from(*budget));
                field(out, labels);
            }
            Request::Judge { file, labels } => {
                field(out, file);
                field(out, labels);
            }
            Request::Line { file, number, buffer } => {
                field(out, file);
                decimal(out, *number);
                field(out, buffer);
            }
            Request::Reply { file, text, labels } => {
                field(out, file);
                field(out, text);
                field(out, labels);
            }
            Request::P1 { connections, limit, buffer } => {
                field(out, connections);
                decimal(out, u64::from(*limit));
                field(out, buffer);
            }
            Request::P1Route { connections, limit, budget, labels } => {
                field(out, connections);
                decimal(out, u64::from(*limit));
                decimal(out, u64::from(*budget));
                field(out, labels);
            }
            Request::Program { input } => field(out, input),
            Request::Edit { .. } | Request::Panel { .. } | Request::PanelRoute { .. } => self.write_edits(out),
        }
        out.push(b'\n');
    }

    /// The fields of an op on a panel.
    fn write_edits(&self, out: &mut Vec<u8>) {
        match self {
            Request::Edit { columns, tracks, ops } => {
                decimal(out, *columns);
                decimal(out, *tracks);
                text(out, &edit::ops_text(ops));
            }
            Request::Panel { panel, ops } => {
                field(out, &panel[..]);
                text(out, &edit::ops_text(ops));
            }
            Request::PanelRoute { panel, ops, limit, budget, labels } => {
                field(out, &panel[..]);
                text(out, &edit::ops_text(ops));
                decimal(out, u64::from(*limit));
                decimal(out, u64::from(*budget));
                field(out, labels);
            }
            _ => {}
        }
    }
}

impl Answer {
    pub fn new(word: &'static str, numbers: &[u64], buffer: Option<Vec<u8>>) -> Answer {
        Answer { word, numbers: numbers.to_vec(), edited: None, buffer }
    }

    /// What the operations on a panel are answered.
    pub fn edited(word: &'static str, edited: Vec<Edited>, buffer: Option<Vec<u8>>) -> Answer {
        Answer { word, numbers: Vec::new(), edited: Some(edited), buffer }
    }

    /// Writes the answer as a line, LF included.
    pub fn write(&self, out: &mut Vec<u8>) {
        out.extend_from_slice(self.word.as_bytes());
        for &n in &self.numbers {
            decimal(out, n);
        }
        match &self.edited {
            Some(edited) if self.word.is_empty() => out.extend_from_slice(edit::edited_text(edited).as_bytes()),
            Some(edited) => text(out, &edit::edited_text(edited)),
            None => {}
        }
        match &self.buffer {
            Some(buffer) if self.word.is_empty() => hex(out, buffer),
            Some(buffer) => field(out, buffer),
            None => {}
        }
        out.push(b'\n');
    }
}

impl Bad {
    pub fn word(self) -> &'static str {
        match self {
            Bad::Protocol => "protocol-error",
            Bad::NoSuchOp => "no-such-op",
        }
    }
}

fn decimal(out: &mut Vec<u8>, n: u64) {
    text(out, &n.to_string());
}

fn text(out: &mut Vec<u8>, text: &str) {
    out.push(b' ');
    out.extend_from_slice(text.as_bytes());
}

fn field(out: &mut Vec<u8>, bytes: &[u8]) {
    out.push(b' ');
    hex(out, bytes);
}

/// Appends bytes as lower-case hex; `-` for none.
pub fn hex(out: &mut Vec<u8>, bytes: &[u8]) {
    const DIGITS: &[u8; 16] = b"0123456789abcdef";
    if bytes.is_empty() {
        out.push(b'-');
    }
    for &b in bytes {
        out.push(DIGITS[usize::from(b >> 4)]);
        out.push(DIGITS[usize::from(b & 15)]);
    }
}

/// Reads lower-case hex; `-` is the empty byte string, and the empty field is nothing.
pub fn bytes(field: &[u8]) -> Option<Vec<u8>> {
    if field == b"-" {
        return Some(Vec::new());
    }
    if field.is_empty() || field.len() % 2 != 0 {
        return None;
    }
    field.chunks_exact(2).map(|pair| Some(digit(pair[0])? << 4 | digit(pair[1])?)).collect()
}

/// A panel that is lent: as many bytes as it has.
fn lent(field: &[u8]) -> Option<Box<[u8; PANEL]>> {
    bytes(field)?.try_into().ok().map(Box::new)
}

fn digit(b: u8) -> Option<u8> {
    match b {
        b'0'..=b'9' => Some(b - b'0'),
        b'a'..=b'f' => Some(b - b'a' + 10),
        _ => None,
    }
}

fn number64(field: &[u8]) -> Option<u64> {
    if field.is_empty() {
        return None;
    }
    field.iter().try_fold(0u64, |n, &b| match b {
        b'0'..=b'9' => n.checked_mul(10)?.checked_add(u64::from(b - b'0')),
        _ => None,
    })
}

fn number32(field: &[u8]) -> Option<u32> {
    number64(field).and_then(|n| u32::try_from(n).ok())
}

#[cfg(test)]
mod tests {
    use super::*;

    #[test]
    fn a_request_is_written_as_it_is_read() {
        for line in [
            "read -",
            "route 0200 4294967295 aabbccdd",
            "judge - 00ff",
            "line 01 18446744073709551615 -",
            "reply - 73 -",
            "p1 0102 33 -",
            "p1route 010200 2 0 ff",
            "program 0a",
        ] {
            let mut out = Vec::new();
            Request::parse(line.as_bytes()).expect(line).write(&mut out);
            assert_eq!(String::from_utf8(out).unwrap(), format!("{line}\n"));
        }
    }

    #[test]
    fn what_is_not_of_the_protocol_is_told_apart() {
        for line in [
            "",
            " ",
            "read",
            "read ",
            "read 0",
            "read 0A",
            "read 0g",
            "read  -",
            "read - ",
            "read -\r",
            "Read -",
            "route - 4294967296 -",
            "route - -1 -",
            "route - +1 -",
            "route - 1",
            "line - 18446744073709551616 -",
            "p1route 0102 2 0 ff",
            "nothing -",
        ] {
            assert_eq!(Request::parse(line.as_bytes()), Err(Bad::Protocol), "{line:?}");
        }
        for line in ["sheet", "p2 - 1 -", "p2route", "burn", "mend", "fewest", "single", "dogleg x"] {
            assert_eq!(Request::parse(line.as_bytes()), Err(Bad::NoSuchOp), "{line:?}");
        }
    }
}
