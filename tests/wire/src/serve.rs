//! The loop of a program that speaks the protocol.

use crate::{Answer, Bad, Request};
use std::io::{Read, Result, Write};

/// Appends the answer to one line, given without its LF.
pub fn answer_line(line: &[u8], answer: &mut impl FnMut(Request) -> Served, out: &mut Vec<u8>) {
    match Request::parse(line).and_then(|request| answer(request)) {
        Ok(answer) => answer.write(out),
        Err(bad) => {
            out.extend_from_slice(bad.word().as_bytes());
            out.push(b'\n');
        }
    }
}

type Served = std::result::Result<Answer, Bad>;

/// Answers each line of `input` by a line of `output`, in order. Before each read that may wait, all answers so far are written and flushed.
/// A last line without LF is answered too.
pub fn serve(mut input: impl Read, mut output: impl Write, mut answer: impl FnMut(Request) -> Served) -> Result<()> {
    let mut chunk = vec![0; 1 << 16];
    let mut held = Vec::new();
    let mut out = Vec::new();
    loop {
        let n = match input.read(&mut chunk) {
            Ok(n) => n,
            Err(e) if e.kind() == std::io::ErrorKind::Interrupted => continue,
            Err(e) => return Err(e),
        };
        let mut rest = &chunk[..n];
        while let Some(end) = rest.iter().position(|&b| b == b'\n') {
            held.extend_from_slice(&rest[..end]);
            answer_line(&held, &mut answer, &mut out);
            held.clear();
            rest = &rest[end + 1..];
        }
        held.extend_from_slice(rest);
        if n == 0 && !held.is_empty() {
            answer_line(&held, &mut answer, &mut out);
        }
        output.write_all(&out)?;
        output.flush()?;
        out.clear();
        if n == 0 {
            return Ok(());
        }
    }
}

#[cfg(test)]
mod tests {
    use super::*;

    #[test]
    fn every_line_has_its_answer_in_order() {
        let input = b"program 61\nnonsense\n\nsingle -\nprogram -";
        let mut out = Vec::new();
        serve(&input[..], &mut out, |request| match request {
            Request::Program { input } => Ok(Answer::new("", &[], Some(input))),
            _ => Err(Bad::NoSuchOp),
        })
        .unwrap();
        assert_eq!(String::from_utf8(out).unwrap(), "61\nprotocol-error\nprotocol-error\nno-such-op\n-\n");
    }
}
