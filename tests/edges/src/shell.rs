//! Lines as a person types them, run by bash in a folder that looks like the repository, with room for files of its own.

use std::io::{self, Write};
use std::os::unix::fs::symlink;
use std::path::{Path, PathBuf};
use std::process::{Command, Output, Stdio};

/// A folder of links to what the repository has at its root. It is removed at the end.
pub struct Shell {
    pub root: PathBuf,
    pub folder: PathBuf,
}

/// How a line ended: its status, or nothing where a signal ended it, and what it wrote.
pub struct Ended {
    pub status: Option<i32>,
    pub out: Vec<u8>,
    pub err: String,
}

impl Ended {
    fn of(output: Output) -> Ended {
        Ended { status: output.status.code(), out: output.stdout, err: String::from_utf8_lossy(&output.stderr).into_owned() }
    }

    pub fn text(&self) -> String {
        String::from_utf8_lossy(&self.out).into_owned()
    }

    /// What to show where it was not as expected.
    pub fn shown(&self) -> String {
        format!("  status {:?}\n  out {:?}\n  err {:?}", self.status, self.text(), self.err)
    }
}

impl Shell {
    pub fn new() -> io::Result<Shell> {
        let root = std::env::current_dir()?;
        let folder = std::env::temp_dir().join(format!("silienvo-edges-{}", std::process::id()));
        std::fs::create_dir(&folder)?;
        for entry in std::fs::read_dir(&root)? {
            let name = entry?.file_name();
            symlink(root.join(&name), folder.join(&name))?;
        }
        Ok(Shell { root, folder })
    }

    /// Runs a line, for at most a minute.
    pub fn line(&self, line: &str) -> io::Result<Ended> {
        Command::new("timeout").args(["60", "bash", "-c", line]).current_dir(&self.folder).stdin(Stdio::null()).output().map(Ended::of)
    }

    /// Runs the command itself, without its wrapper, on a standard input.
    pub fn command(&self, words: &[&str], input: &[u8]) -> io::Result<Ended> {
        let program = self.root.join("target/cargo/release/silienvo");
        self.program(&program, words, input)
    }

    pub fn program(&self, program: &Path, words: &[&str], input: &[u8]) -> io::Result<Ended> {
        let mut child = Command::new(program)
            .args(words)
            .current_dir(&self.folder)
            .stdin(Stdio::piped())
            .stdout(Stdio::piped())
            .stderr(Stdio::piped())
            .spawn()?;
        let mut pipe = child.stdin.take().expect("a pipe");
        let sent = pipe.write_all(input);
        drop(pipe);
        match sent {
            Err(error) if error.kind() != io::ErrorKind::BrokenPipe => Err(error),
            _ => child.wait_with_output().map(Ended::of),
        }
    }

    pub fn write(&self, name: &str, bytes: &[u8]) -> io::Result<()> {
        std::fs::write(self.folder.join(name), bytes)
    }
}

impl Drop for Shell {
    fn drop(&mut self) {
        let _ = std::fs::remove_dir_all(&self.folder);
    }
}
