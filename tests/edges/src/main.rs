//! Runs what a person types and holds it against what the pages say: `edges`, in the repository's root, after `tests/build`.
//! The last line is `N passed, F failed`; the exit status is 0 only if F is 0.

mod checks;
mod header;
mod incident;
mod pages;
mod pictures;
mod promises;
mod shell;
mod statuses;

use checks::Checks;
use shell::Shell;

fn main() -> std::io::Result<()> {
    let mut checks = Checks::default();
    let shell = Shell::new()?;
    statuses::run(&shell, &mut checks)?;
    pages::run(&shell, &mut checks)?;
    promises::run(&shell, &mut checks)?;
    pictures::run(&shell, &mut checks)?;
    header::run(&shell, &mut checks)?;
    incident::run(&shell, &mut checks)?;
    drop(shell);
    std::process::exit(checks.end());
}
