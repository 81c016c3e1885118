//! Pictures are XML, whatever the file's name, and show every connection.

use crate::checks::Checks;
use crate::shell::Shell;
use std::io;

/// What is wrong with a text as XML: tags that do not match, or a mark that is not escaped. Nothing if it is well-formed as far as pictures go.
fn flaw(text: &str) -> Option<String> {
    let mut open: Vec<&str> = Vec::new();
    let mut rest = text.strip_prefix("<?xml version=\"1.0\" encoding=\"UTF-8\"?>\n").unwrap_or(text);
    while let Some(start) = rest.find('<') {
        let (between, tag) = rest.split_at(start);
        let end = tag.find('>')?;
        let bare = |part: &&str| !["amp;", "lt;", "gt;", "quot;", "#39;"].iter().any(|name| part.starts_with(name));
        if between.split('&').skip(1).any(|part| bare(&part)) || between.contains('>') || between.chars().any(|c| c.is_control() && c != '\n') {
            return Some(between.to_string());
        }
        let inside = &tag[1..end];
        let name = inside.trim_start_matches('/').split([' ', '/']).next().unwrap_or("");
        if inside.starts_with('/') {
            if open.pop() != Some(name) {
                return Some(inside.to_string());
            }
        } else if !inside.ends_with('/') {
            open.push(name);
        }
        rest = &tag[end + 1..];
    }
    (!open.is_empty() || !rest.trim().is_empty()).then(|| format!("{open:?} {rest:?}"))
}

pub fn run(shell: &Shell, checks: &mut Checks) -> io::Result<()> {
    checks.group("pictures");
    let name = "<a>&\"b' \u{1}\u{e9}.job";
    std::fs::copy(shell.root.join("examples/a.job"), shell.folder.join(name))?;
    for (file, status, connections, said) in [
        ("examples/a.job", 0, 3, "routed, 4 trials"),
        (name, 0, 3, "routed, 4 trials"),
        ("examples/b.job", 1, 3, "unroutable, 10 trials"),
        ("undecided.job", 2, 64, "undecided, 1000000 trials"),
        ("full.job", 0, 64, "routed, 803 trials"),
        ("none.job", 0, 0, "routed, 0 trials"),
        ("net-127.job", 0, 3, "routed, 4 trials"),
    ] {
        let ended = shell.command(&["draw", file], b"")?;
        let text = ended.text();
        let wrong = flaw(&text);
        checks.check(ended.status == Some(status) && wrong.is_none() && text.starts_with("<?xml"), &format!("draw {file:?}: XML"), || {
            format!("{wrong:?}")
        });
        let all = (1..=connections).all(|number| text.contains(&format!("<title>connection {number}: ")));
        checks.check(all && text.contains(said), &format!("draw {file:?}: every connection and {said}"), || text.chars().take(600).collect());
    }
    let page = std::fs::read(shell.root.join("docs/job-a.svg"))?;
    let drawn = shell.command(&["draw", "examples/a.job"], b"")?;
    checks.check(drawn.out == page, "docs/job-a.svg is what draw makes of examples/a.job", || drawn.shown());
    for text in ["<a>&</a>", "<a></b>", "<a>", "<a>x</a>y", "<a>></a>"] {
        checks.check(flaw(text).is_some(), &format!("{text} is not XML"), String::new);
    }
    Ok(())
}
