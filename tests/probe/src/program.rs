//! The built routing program, for the program op.

use std::io::Write;
use std::path::{Path, PathBuf};
use std::process::{Command, Stdio};

/// SILIENVO_ROUTER, or target/bin/router in the nearest folder above the probe that has it.
pub fn find() -> Option<PathBuf> {
    if let Some(path) = std::env::var_os("SILIENVO_ROUTER") {
        return Some(path.into());
    }
    let probe = std::env::current_exe().ok()?;
    probe.ancestors().map(|folder| folder.join("target/bin/router")).find(|path| path.is_file())
}

/// What the program writes to standard output when it is given `input`. It may stop reading before the end.
pub fn run(router: &Path, input: &[u8]) -> Option<Vec<u8>> {
    let mut child = Command::new(router).stdin(Stdio::piped()).stdout(Stdio::piped()).spawn().ok()?;
    let mut pipe = child.stdin.take()?;
    let _ = pipe.write_all(input);
    drop(pipe);
    child.wait_with_output().ok().map(|output| output.stdout)
}
