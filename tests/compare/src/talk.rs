//! A running program that speaks the probe's protocol.

use std::io::{BufRead, BufReader, Write};
use std::path::Path;
use std::process::{Child, ChildStdin, ChildStdout, Command, Stdio};

pub struct Probe {
    child: Child,
    pub input: ChildStdin,
    pub output: BufReader<ChildStdout>,
}

impl Probe {
    pub fn start(path: &Path) -> std::io::Result<Probe> {
        let mut child = Command::new(path).stdin(Stdio::piped()).stdout(Stdio::piped()).spawn()?;
        let input = child.stdin.take().expect("a pipe");
        let output = BufReader::new(child.stdout.take().expect("a pipe"));
        Ok(Probe { child, input, output })
    }

    /// One request line, given without its LF, and its answer.
    pub fn ask(&mut self, line: &[u8]) -> std::io::Result<Vec<u8>> {
        self.input.write_all(&[line, b"\n"].concat())?;
        next_line(&mut self.output)
    }

    /// Parts it, so that one thread may write while another reads.
    pub fn parts(self) -> (Child, ChildStdin, BufReader<ChildStdout>) {
        (self.child, self.input, self.output)
    }

    /// Ends it by ending its input.
    pub fn end(self) -> std::io::Result<()> {
        let (mut child, input, _) = self.parts();
        drop(input);
        child.wait().map(drop)
    }
}

/// The next answer, without its LF; an error where the program ended.
pub fn next_line(output: &mut impl BufRead) -> std::io::Result<Vec<u8>> {
    let mut line = Vec::new();
    output.read_until(b'\n', &mut line)?;
    match line.pop() {
        Some(b'\n') => Ok(line),
        _ => Err(std::io::Error::new(std::io::ErrorKind::UnexpectedEof, "the probe ended")),
    }
}
