//! Standard input and output without loss. Rust's own handles take a closed descriptor for an empty input, or for an output that swallows what it is given;
//! here both are errors. An answer is whole when `finish` has said so.

use crate::status::Failure;
use std::ffi::c_int;
use std::fs::File;
use std::io::{self, BufWriter, Read, Write};
use std::os::fd::{AsFd, IntoRawFd};

extern "C" {
    fn signal(number: c_int, handler: usize) -> usize;
    fn close(descriptor: c_int) -> c_int;
}

const SIGPIPE: c_int = 13;
const SIGXFSZ: c_int = 25;
const IGNORE: usize = 1;

/// From here on a write to a pipe that nobody reads, or past a limit on a file's size, is an error and does not end the process.
pub fn take_signals_as_errors() {
    for number in [SIGPIPE, SIGXFSZ] {
        unsafe { signal(number, IGNORE) };
    }
}

/// Says a line on standard error. Where that is not taken either, the status alone tells.
pub fn say(line: &str) {
    let _ = writeln!(io::stderr(), "silienvo: {line}");
}

/// All of standard input.
pub fn standard_input() -> Result<Vec<u8>, Failure> {
    let all = || -> io::Result<Vec<u8>> {
        let mut bytes = Vec::new();
        File::from(io::stdin().as_fd().try_clone_to_owned()?).read_to_end(&mut bytes)?;
        Ok(bytes)
    };
    all().map_err(|error| Failure::new(format!("standard input could not be read: {error}")))
}

/// Standard output.
pub struct Output(BufWriter<File>);

impl Output {
    pub fn standard() -> Result<Output, Failure> {
        let descriptor = io::stdout().as_fd().try_clone_to_owned().map_err(not_written)?;
        Ok(Output(BufWriter::new(descriptor.into())))
    }

    pub fn write(&mut self, bytes: &[u8]) -> Result<(), Failure> {
        self.0.write_all(bytes).map_err(not_written)
    }

    /// Hands on what was written so far.
    pub fn flush(&mut self) -> Result<(), Failure> {
        self.0.flush().map_err(not_written)
    }

    /// Hands on the rest and closes, where some file systems first say that they are full.
    pub fn finish(self) -> Result<(), Failure> {
        let file = self.0.into_inner().map_err(|error| not_written(error.into_error()))?;
        match unsafe { close(file.into_raw_fd()) } {
            0 => Ok(()),
            _ => Err(not_written(io::Error::last_os_error())),
        }
    }
}

fn not_written(error: io::Error) -> Failure {
    Failure::new(format!("standard output could not be written whole: {error}"))
}
