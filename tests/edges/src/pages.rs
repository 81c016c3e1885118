//! The pages say what is so: the README's examples, run as printed; the one table of statuses; the functions that are only between crates.

use crate::checks::Checks;
use crate::shell::Shell;
use std::io;

/// A command of the README, without its `$ `, and what is printed below it.
struct Example {
    line: String,
    printed: String,
}

/// The examples: in blocks between fences, a line that begins with `$ ` and the lines behind it.
fn examples(page: &str) -> Vec<Example> {
    let mut examples: Vec<Example> = Vec::new();
    for block in page.split("```").skip(1).step_by(2) {
        let mut inside = false;
        for line in block.lines().skip(1) {
            match (line.strip_prefix("$ "), examples.last_mut()) {
                (Some(command), _) => {
                    examples.push(Example { line: command.to_string(), printed: String::new() });
                    inside = true;
                }
                (None, Some(example)) if inside => example.printed.push_str(&format!("{line}\n")),
                _ => {}
            }
        }
    }
    examples
}

/// The public functions of a source file that have a precondition, methods among them.
fn asking(source: &str) -> Vec<&str> {
    let mut found = Vec::new();
    for part in source.split("pub fn ").skip(1) {
        let mut head = part.lines().take_while(|line| !line.trim_end().ends_with('{') || line.trim_start().starts_with("requires "));
        if head.any(|line| line.trim_start().starts_with("requires ")) {
            found.extend(part.split(['(', '<']).next());
        }
    }
    found
}

/// Every public function with a precondition is named in DECISIONS: a stranger may call the others.
fn between_crates(shell: &Shell, checks: &mut Checks) -> io::Result<()> {
    let page = std::fs::read_to_string(shell.root.join("docs/DECISIONS.md"))?;
    let mut count = 0;
    for entry in std::fs::read_dir(shell.root.join("crates"))? {
        let folder = entry?.path();
        let name = folder.file_name().unwrap_or_default().to_string_lossy().into_owned();
        for source in std::fs::read_dir(folder.join("src"))? {
            for function in asking(&std::fs::read_to_string(source?.path())?) {
                count += 1;
                checks.check(page.contains(&format!("`{name}::{function}`")), &format!("DECISIONS names {name}::{function}"), String::new);
            }
        }
    }
    checks.check(count > 20, "functions with a precondition are found", || count.to_string());
    Ok(())
}

/// How many examples the README has at least: fewer would say that they are no longer found.
const FEWEST: usize = 10;

pub fn run(shell: &Shell, checks: &mut Checks) -> io::Result<()> {
    checks.group("pages");
    let page = std::fs::read_to_string(shell.root.join("README.md"))?;
    let examples = examples(&page);
    checks.check(examples.len() >= FEWEST, "the README has its examples", || format!("  {} found", examples.len()));
    for example in examples {
        let ended = shell.line(&example.line)?;
        checks.check(ended.text() == example.printed, &format!("README: {}", example.line), || {
            format!("  printed {:?}\n{}", example.printed, ended.shown())
        });
    }
    let table = std::fs::read_to_string(shell.root.join("docs/statuses.txt"))?;
    checks.check(page.contains(&table), "the README has the table of statuses", String::new);
    for line in ["./route --help", "./route -h", "./silienvo help", "./silienvo --help", "./silienvo route --help", "./silienvo draw -h"] {
        let ended = shell.line(line)?;
        checks.check(ended.status == Some(0) && ended.text().ends_with(&table), &format!("{line} ends with the table of statuses"), || ended.shown());
    }
    between_crates(shell, checks)
}
