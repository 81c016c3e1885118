//! docs/PROMISES.md against the crates: every row has an edit with teeth, and every edit is named; every law that is named is there; and what a reader must
//! believe is told from the stepping stones and rests on none of them.

use crate::checks::Checks;
use crate::shell::Shell;
use std::path::{Path, PathBuf};
use std::{fs, io};

/// How the first line of a file of stepping stones begins.
const STEPS: &str = "-- Stepping stones: ";

/// The files below a folder with this ending, in order; `out` holds what rt made.
fn files(folder: &Path, ending: &str) -> io::Result<Vec<PathBuf>> {
    let mut found = Vec::new();
    if folder.is_dir() {
        for entry in fs::read_dir(folder)? {
            let path = entry?.path();
            if path.is_dir() {
                found.extend(if path.ends_with("out") { Vec::new() } else { files(&path, ending)? });
            } else if path.extension().is_some_and(|last| last == ending) {
                found.push(path);
            }
        }
    }
    found.sort();
    Ok(found)
}

fn stem(path: &Path) -> String {
    path.file_stem().unwrap_or_default().to_string_lossy().into_owned()
}

/// The names of the crates.
fn crates(root: &Path) -> io::Result<Vec<String>> {
    let mut names = Vec::new();
    for entry in fs::read_dir(root.join("crates"))? {
        names.push(entry?.file_name().to_string_lossy().into_owned());
    }
    names.sort();
    Ok(names)
}

/// The rows of the tables whose last column holds edits: the first cell and the last.
fn rows(page: &str) -> Vec<(&str, &str)> {
    let mut found = Vec::new();
    let mut inside = false;
    for line in page.lines() {
        let cells: Vec<&str> = line.trim_matches('|').split('|').map(str::trim).collect();
        match (line.starts_with('|'), cells.last()) {
            (true, Some(&"edits")) => inside = true,
            (true, Some(last)) if inside && !last.starts_with("---") => found.push((cells[0], *last)),
            (true, _) => {}
            (false, _) => inside = false,
        }
    }
    found
}

/// The edits that a cell names: `crate/label, label; crate/label`.
fn named(cell: &str) -> Vec<String> {
    let mut found = Vec::new();
    let mut home = "";
    for name in cell.split([',', ';']).map(str::trim) {
        match name.split_once('/') {
            Some((crate_name, label)) => {
                home = crate_name;
                found.push(format!("{home}/{label}"));
            }
            None => found.push(format!("{home}/{name}")),
        }
    }
    found
}

fn edits(root: &Path, page: &str, checks: &mut Checks) -> io::Result<()> {
    let mut there = Vec::new();
    for name in crates(root)? {
        for edit in files(&root.join("crates").join(&name).join("must-fail"), "edit")? {
            there.push(format!("{name}/{}", stem(&edit)));
        }
    }
    let mut cited = Vec::new();
    for (row, cell) in rows(page) {
        let here = named(cell);
        for edit in &here {
            checks.check(there.contains(edit), &format!("PROMISES, {row}: the edit {edit} is there"), String::new);
        }
        cited.extend(here);
    }
    for edit in &there {
        checks.check(cited.contains(edit), &format!("PROMISES names the edit {edit}"), String::new);
    }
    checks.check(there.len() > 100, "the edits are found", || there.len().to_string());
    Ok(())
}

/// The names of two words or more on the page: between backquotes, joined by `_` or `-`.
fn words(page: &str) -> Vec<&str> {
    let joins = |b: u8| b == b'-' || b == b'_';
    let word = |name: &&str| {
        name.bytes().any(joins) && name.bytes().all(|b| b.is_ascii_lowercase() || b.is_ascii_digit() || joins(b)) && !name.starts_with(['-', '_'])
    };
    page.split('`').skip(1).step_by(2).filter_map(|said| said.split_whitespace().next()).filter(word).collect()
}

fn laws_are_there(root: &Path, page: &str, checks: &mut Checks) -> io::Result<()> {
    let (mut all, mut code) = (String::new(), String::new());
    for name in crates(root)? {
        let home = root.join("crates").join(name);
        for file in files(&home, "antt")? {
            all.push_str(&fs::read_to_string(file)?);
        }
        for file in files(&home, "rt")? {
            code.push_str(&fs::read_to_string(file)?);
        }
    }
    let mut laws = 0;
    for word in words(page) {
        let law = all.contains(&format!("pub {word} :"));
        checks.check(law || code.contains(&format!("fn {word}(")), &format!("PROMISES: the law {word} is there"), String::new);
        laws += usize::from(law);
    }
    checks.check(laws > 80, "the laws are found", || laws.to_string());
    Ok(())
}

/// The file of specs that a line of imports names, if it names one.
fn imported(root: &Path, line: &str) -> Option<PathBuf> {
    let rest = line.strip_prefix("use Rattle.")?;
    let (home, path) = rest.split_once(".specs.")?;
    let file = path.split(['.', ' ']).next()?;
    let path = root.join(format!("crates/{home}/specs/{file}.antt"));
    path.is_file().then_some(path)
}

/// What a reader must believe imports no stepping stone, and the page has the lines of both for each crate.
fn believed(root: &Path, page: &str, checks: &mut Checks) -> io::Result<()> {
    let (mut all, mut all_steps) = (0, 0);
    for name in crates(root)? {
        let (mut lines, mut steps) = (0, 0);
        for file in files(&root.join("crates").join(&name).join("specs"), "antt")? {
            let text = fs::read_to_string(&file)?;
            if text.starts_with(STEPS) {
                steps += text.lines().count();
                continue;
            }
            lines += if stem(&file) == "Lib" { 0 } else { text.lines().count() };
            for other in text.lines().filter_map(|line| imported(root, line)) {
                let rests = fs::read_to_string(&other)?.starts_with(STEPS);
                checks.check(!rests, &format!("{}: rests on no stepping stone", file.display()), || other.display().to_string());
            }
        }
        if lines + steps > 0 {
            let row = format!("| `{name}` | {lines} | {steps} |");
            checks.check(page.contains(&row), &format!("PROMISES tells how much of {name} is to be believed"), || row.clone());
        }
        (all, all_steps) = (all + lines, all_steps + steps);
    }
    let row = format!("| all | {all} | {all_steps} |");
    checks.check(page.contains(&row), "PROMISES tells how much is to be believed", || row.clone());
    Ok(())
}

pub fn run(shell: &Shell, checks: &mut Checks) -> io::Result<()> {
    checks.group("promises");
    let page = fs::read_to_string(shell.root.join("docs/PROMISES.md"))?;
    edits(&shell.root, &page, checks)?;
    laws_are_there(&shell.root, &page, checks)?;
    believed(&shell.root, &page, checks)
}
