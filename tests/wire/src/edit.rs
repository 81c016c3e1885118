//! Operations on the editor's panel and what each is answered, as fields of the protocol: operations are joined by commas, and so are their answers; none
//! at all is `-`. An operation has a letter and its numbers, `a:L:R:MARK`, `d:I`, `m:I:L:R`, `c`, and on lent bytes also `n:N:T`, which makes a panel.

use crate::number64;

/// The bytes of a panel.
pub const PANEL: usize = 451;

#[derive(Clone, Copy, Debug, PartialEq, Eq)]
pub enum Op {
    Make { columns: u64, tracks: u64 },
    Clear,
    Add { left: u64, right: u64, mark: u8 },
    Drop { number: u64 },
    Move { number: u64, left: u64, right: u64 },
}

/// What an operation is answered: `ok:LOADS:RED`, the loads of columns 1 to N joined by `.` and the first red column or 0; or `refused:NO:PLACE`.
#[derive(Clone, Debug, PartialEq, Eq)]
pub enum Edited {
    Done { loads: Vec<u8>, red: u64 },
    Refused { number: u32, place: u64 },
}

impl Op {
    fn parse(text: &[u8]) -> Option<Op> {
        let parts: Vec<&[u8]> = text.split(|&b| b == b':').collect();
        let (letter, numbers) = parts.split_first()?;
        let numbers = numbers.iter().map(|part| number64(part)).collect::<Option<Vec<u64>>>()?;
        Some(match (*letter, &numbers[..]) {
            (b"n", &[columns, tracks]) => Op::Make { columns, tracks },
            (b"c", &[]) => Op::Clear,
            (b"a", &[left, right, mark]) => Op::Add { left, right, mark: mark.try_into().ok()? },
            (b"d", &[number]) => Op::Drop { number },
            (b"m", &[number, left, right]) => Op::Move { number, left, right },
            _ => return None,
        })
    }

    fn text(&self) -> String {
        match self {
            Op::Make { columns, tracks } => format!("n:{columns}:{tracks}"),
            Op::Clear => "c".to_string(),
            Op::Add { left, right, mark } => format!("a:{left}:{right}:{mark}"),
            Op::Drop { number } => format!("d:{number}"),
            Op::Move { number, left, right } => format!("m:{number}:{left}:{right}"),
        }
    }
}

impl Edited {
    fn text(&self) -> String {
        match self {
            Edited::Done { loads, red } => format!("ok:{}:{red}", joined(loads.iter().map(u8::to_string), ".")),
            Edited::Refused { number, place } => format!("refused:{number}:{place}"),
        }
    }
}

fn joined(texts: impl Iterator<Item = String>, by: &str) -> String {
    let texts: Vec<String> = texts.collect();
    if texts.is_empty() {
        "-".to_string()
    } else {
        texts.join(by)
    }
}

/// Operations on any panel.
pub fn ops(field: &[u8]) -> Option<Vec<Op>> {
    match field {
        b"-" => Some(Vec::new()),
        _ => field.split(|&b| b == b',').map(Op::parse).collect(),
    }
}

/// Operations on a panel that is made already.
pub fn edits(field: &[u8]) -> Option<Vec<Op>> {
    ops(field).filter(|ops| !ops.iter().any(|op| matches!(op, Op::Make { .. })))
}

pub fn ops_text(ops: &[Op]) -> String {
    joined(ops.iter().map(Op::text), ",")
}

pub fn edited_text(edited: &[Edited]) -> String {
    joined(edited.iter().map(Edited::text), ",")
}

#[cfg(test)]
mod tests {
    use super::*;
    use crate::{Answer, Bad, Request};

    #[test]
    fn a_request_is_written_as_it_is_read() {
        let (noughts, ones) = ("00".repeat(PANEL), "ff".repeat(PANEL));
        for line in [
            "edit 6 2 -",
            "edit 0 18446744073709551615 a:1:300:255,d:0,m:18446744073709551615:1:1,c",
            &format!("panel {noughts} n:6:2,c"),
            &format!("panelroute {ones} - 3 4 aabb"),
        ] {
            let mut out = Vec::new();
            Request::parse(line.as_bytes()).expect(line).write(&mut out);
            assert_eq!(String::from_utf8(out).unwrap(), format!("{line}\n"));
        }
    }

    #[test]
    fn edits_are_answered_a_field_each() {
        let edited = vec![Edited::Done { loads: vec![1, 0, 255], red: 3 }, Edited::Refused { number: 5, place: 300 }];
        let line = |answer: Answer| {
            let mut out = Vec::new();
            answer.write(&mut out);
            String::from_utf8(out).unwrap()
        };
        assert_eq!(line(Answer::edited("", edited.clone(), None)), "ok:1.0.255:3,refused:5:300\n");
        assert_eq!(line(Answer::edited("panel", edited, Some(vec![7]))), "panel ok:1.0.255:3,refused:5:300 07\n");
        assert_eq!(line(Answer::edited("", vec![], None)), "-\n");
    }

    #[test]
    fn what_is_no_operation_is_not_of_the_protocol() {
        let ops =
            ["", " ", "c,", ",c", "c c", "x", "c:1", "a:1:2", "a:1:2:256", "a:1:2:-1", "d:", "d:+1", "d:18446744073709551616", "m:1:2", "n:6:2"];
        let lines =
            ["edit", "edit 6 2", "edit 6", "edit 18446744073709551616 2 c", "edit -1 2 c", "panel 00 c", "panel - c", "panelroute 00 - 1 1 -"];
        for line in lines.map(String::from).into_iter().chain(ops.map(|op| format!("edit 6 2 {op}"))) {
            assert_eq!(Request::parse(line.as_bytes()), Err(Bad::Protocol), "{line:?}");
        }
    }
}
