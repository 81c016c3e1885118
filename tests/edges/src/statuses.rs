//! Every status of every command, and what becomes of an answer that cannot be read or written.

use crate::checks::Checks;
use crate::shell::Shell;
use second::make::{channel, Rng, Shape};
use std::io;

const A: &str = "routed 4\n1 1 1 1\n2 2 2 2\n3 1 2 2\n";

/// A line, its status, and all of its standard output.
const LINES: [(&str, i32, &str); 102] = [
    ("./route < examples/a.job", 0, A),
    ("./route < examples/b.job", 1, "unroutable 10\n"),
    ("./route < undecided.job", 2, "undecided 1000000\n"),
    ("./route < cut.job", 3, "refused 3 0\n"),
    ("./route < /dev/null", 3, "refused 1 0\n"),
    ("head -c 5000 /dev/zero | ./route", 3, "refused 3 0\n"),
    ("{ head -c 4088 /dev/zero; printf '\\370\\017\\0\\0\\6\\2\\0\\2'; } | ./route", 3, "refused 4 1\n"),
    ("{ head -c 4088 /dev/zero; printf '\\370\\017\\0\\0\\6\\2\\0\\2x'; } | ./route", 3, "refused 3 0\n"),
    ("./route < .", 4, ""),
    ("./route <&-", 4, ""),
    ("./route examples/a.job", 4, ""),
    ("./route --help | head -n 1", 0, "./route < JOB: routes the job on standard input with a budget of 1,000,000 trials and prints the verdict and its trials; if routed, then a line for each\n"),
    ("ln -s ../$(basename $PWD)/route to-route && cd / && $OLDPWD/to-route < $OLDPWD/examples/a.job", 0, A),
    ("ln -s ../$(basename $PWD)/silienvo to-silienvo && cd / && $OLDPWD/to-silienvo route $OLDPWD/examples/a.job", 0, A),
    ("./silienvo route examples/a.job", 0, A),
    ("./silienvo route --budget 4 examples/a.job", 0, A),
    ("./silienvo route --budget=3 -- examples/a.job", 2, "undecided 3\n"),
    ("./silienvo route examples/b.job", 1, "unroutable 10\n"),
    ("./silienvo route undecided.job", 2, "undecided 1000000\n"),
    ("./silienvo route cut.job", 3, "refused 3 0\n"),
    ("./silienvo route /dev/null", 3, "refused 1 0\n"),
    ("./silienvo route .", 4, ""),
    ("./silienvo route missing.job", 4, ""),
    ("./silienvo route", 4, ""),
    ("./silienvo route --budget examples/a.job", 4, ""),
    ("./silienvo route --budget 4294967296 examples/a.job", 4, ""),
    ("./silienvo route --bugdet 4 examples/a.job", 4, ""),
    ("./silienvo route examples/a.job --help", 4, ""),
    ("./silienvo route -- --help examples/a.job", 4, "--help: not read\nexamples/a.job: routed 4\n2 files: 1 routed, 0 unroutable, 0 undecided, 0 refused, 1 not read\n"),
    ("./silienvo route examples/a.job examples/a.job", 0, "examples/a.job: routed 4\nexamples/a.job: routed 4\n2 files: 2 routed, 0 unroutable, 0 undecided, 0 refused, 0 not read\n"),
    ("./silienvo route examples/b.job examples/a.job", 1, "examples/b.job: unroutable 10\nexamples/a.job: routed 4\n2 files: 1 routed, 1 unroutable, 0 undecided, 0 refused, 0 not read\n"),
    ("./silienvo route undecided.job examples/b.job", 2, "undecided.job: undecided 1000000\nexamples/b.job: unroutable 10\n2 files: 0 routed, 1 unroutable, 1 undecided, 0 refused, 0 not read\n"),
    ("./silienvo route examples/a.job undecided.job cut.job", 3, "examples/a.job: routed 4\nundecided.job: undecided 1000000\ncut.job: refused 3 0\n3 files: 1 routed, 0 unroutable, 1 undecided, 1 refused, 0 not read\n"),
    ("./silienvo route cut.job missing.job .", 4, "cut.job: refused 3 0\nmissing.job: not read\n.: not read\n3 files: 0 routed, 0 unroutable, 0 undecided, 1 refused, 2 not read\n"),
    ("cp examples/a.job $'two\\nlines' && ./silienvo route $'two\\nlines' $'\\xff'", 4, "two\\nlines: routed 4\n\\xff: not read\n2 files: 1 routed, 0 unroutable, 0 undecided, 0 refused, 1 not read\n"),
    ("./silienvo judge examples/a.job 1,2,1", 0, "legal\n"),
    ("./silienvo judge examples/a.job '2 1 2'", 0, "legal\n"),
    ("./silienvo judge examples/a.job 2 1 2", 0, "legal\n"),
    ("./silienvo judge none.job ''", 0, "legal\n"),
    ("./silienvo judge examples/a.job 1,1,1", 3, "refused 11 2\n"),
    ("./silienvo judge examples/a.job 1,2", 3, "refused 11 0\n"),
    ("./silienvo judge examples/a.job 1,2,0", 3, "refused 11 3\n"),
    ("./silienvo judge examples/a.job 1,2,256", 4, ""),
    ("./silienvo judge examples/a.job 1,2,-1", 4, ""),
    ("./silienvo judge examples/a.job", 4, ""),
    ("./silienvo judge missing.job 1,2,1", 4, ""),
    ("./silienvo clauses examples/a.job", 0, "p cnf 3 3\n1 2 0\n2 3 0\n-2 -3 0\n"),
    ("./silienvo clauses none.job", 0, "p cnf 0 0\n"),
    ("./silienvo clauses cut.job", 3, "refused 3 0\n"),
    ("./silienvo clauses examples/a.job examples/b.job", 4, ""),
    ("printf 's SATISFIABLE\\nv -1 2 -3 0\\n' | ./silienvo reply examples/a.job", 0, "accepted\n1 1 1 1\n2 2 2 2\n3 1 2 2\n"),
    ("printf 's UNSATISFIABLE\\n' | ./silienvo reply examples/a.job", 1, "claimed\n"),
    ("printf 's UNKNOWN\\n' | ./silienvo reply examples/a.job", 2, "unknown\n"),
    ("printf 's SATISFIABLE\\nv -1 2 -3\\n' | ./silienvo reply examples/a.job", 3, "refused 6 0\n"),
    ("./silienvo reply examples/a.job < /dev/null", 3, "refused 6 0\n"),
    ("./silienvo reply examples/a.job < .", 4, ""),
    ("./silienvo reply examples/a.job <&-", 4, ""),
    ("printf 'connection 1 12\\nconnection 7 30 critical # late\\n' | ./silienvo p1 3 > p1.job", 0, ""),
    ("./silienvo route p1.job", 0, "routed 8\n1 1 1 3\n2 7 1 2\n"),
    ("printf 'connection 1 31\\n' | ./silienvo p1 3", 3, "refused 5 1\n"),
    ("for i in {1..64}; do echo connection 1 1; done | ./silienvo p1 32 | wc -c", 0, "250\n"),
    ("for i in {1..65}; do echo connection 1 1; done | ./silienvo p1 32", 3, "refused 2 0\n"),
    ("./silienvo p1 33 < /dev/null", 3, "refused 2 0\n"),
    ("./silienvo p1 K < /dev/null", 4, ""),
    ("printf 'track 30\\n' | ./silienvo p1 3", 4, ""),
    ("./silienvo show examples/a.job", 0, "columns 6 # N\nlimit 2 # K\ntrack 3 6 # track 1\ntrack 2 6 # track 2\nconnection 1 2 # connection 1\nconnection 3 5 # connection 2\nconnection 4 6 # connection 3\n"),
    ("./silienvo show examples/a.job | ./silienvo job | cmp - examples/a.job", 0, ""),
    ("./silienvo route net-127.job", 0, "routed 4\n1 1 1 2\n2 2 2 2\n3 1 2 2\n"),
    ("./route < net-127.job", 0, "routed 4\n1 1 1 2\n2 2 2 2\n3 1 2 2\n"),
    ("./silienvo judge net-127.job 1,2,1", 0, "legal\n"),
    ("./silienvo judge net-127.job 1,1,1", 3, "refused 11 2\n"),
    ("./silienvo clauses net-127.job", 0, "p cnf 3 4\n-1 0\n1 2 0\n2 3 0\n-2 -3 0\n"),
    ("./silienvo show net-127.job", 0, "columns 6 # N\nlimit 2 # K\ntrack 3 6 performance # track 1\ntrack 2 6 # track 2\nconnection 3 5 net 127 critical # connection 1\nconnection 4 6 # connection 2\nconnection 4 4 net 127 # connection 3\n"),
    ("./silienvo show net-127.job | ./silienvo job | cmp - net-127.job", 0, ""),
    ("printf 'connection 1 5 net 3 critical\\nconnection 1 5 critical net 3\\n' | ./silienvo p1 1 > p1-nets.job && ./silienvo route p1-nets.job", 0, "routed 14\n1 7 1 1\n2 7 1 1\n"),
    ("printf 'connection 1 12 net 0\\n' | ./silienvo p1 3", 4, ""),
    ("printf 'connection 1 12 net 128\\n' | ./silienvo p1 3", 4, ""),
    ("printf 'connection 1 12 net\\n' | ./silienvo p1 3", 4, ""),
    ("./silienvo show cut.job", 3, "refused 3 0\n"),
    ("./silienvo show .", 4, ""),
    ("printf 'columns 6\\nlimit 2\\ntrack 3 5\\n' | ./silienvo job", 3, "refused 4 1\n"),
    ("printf 'columns 6\\nlimit 2\\ntrack 3 x\\n' | ./silienvo job", 4, ""),
    ("printf 'columns 6\\ntrack 3 6\\n' | ./silienvo job", 4, ""),
    ("./silienvo job < .", 4, ""),
    ("./silienvo loads examples/a.job", 0, "green\n1 1\n2 1\n3 1\n4 2\n5 2\n6 1\n"),
    ("./silienvo loads examples/b.job", 1, "red 4\n1 0\n2 0\n3 1\n4 3\n5 2\n6 1\n"),
    ("./silienvo loads net-127.job", 0, "green\n1 0\n2 0\n3 1\n4 2\n5 2\n6 1\n"),
    ("./silienvo loads none.job", 0, "green\n1 0\n2 0\n3 0\n4 0\n5 0\n6 0\n"),
    ("./silienvo loads p1.job | tail -n 19 | head -n 2", 0, "12 2\n13 1\n"),
    ("./silienvo loads cut.job", 3, "refused 3 0\n"),
    ("./silienvo loads /dev/null", 3, "refused 1 0\n"),
    ("./silienvo loads .", 4, ""),
    ("./silienvo loads missing.job", 4, ""),
    ("./silienvo loads", 4, ""),
    ("./silienvo loads examples/a.job examples/b.job", 4, ""),
    ("./silienvo draw examples/a.job > a.svg", 0, ""),
    ("./silienvo draw examples/b.job > b.svg", 1, ""),
    ("./silienvo draw undecided.job > undecided.svg", 2, ""),
    ("./silienvo draw cut.job", 3, "refused 3 0\n"),
    ("./silienvo draw missing.job", 4, ""),
    ("./silienvo", 4, ""),
    ("./silienvo rout examples/a.job", 4, ""),
];

/// Commands with a good answer: each is given to outputs that do not take it.
const GOOD: [&str; 9] = [
    "./route < examples/a.job",
    "./silienvo route examples/a.job",
    "./silienvo route examples/a.job examples/a.job",
    "./silienvo judge examples/a.job 1,2,1",
    "./silienvo clauses examples/a.job",
    "printf 's SATISFIABLE\\nv -1 2 -3 0\\n' | ./silienvo reply examples/a.job",
    "./silienvo loads examples/a.job",
    "./silienvo show examples/a.job",
    "./silienvo draw examples/a.job",
];

fn prepare(shell: &Shell) -> io::Result<()> {
    let file = |shape: &Shape, seed| channel(&mut Rng::new(seed), shape).encode();
    let long = Shape { columns: 255, tracks: 36, connections: 64, limit: 32, segments: 6, span: 110, critical: 0 };
    let short = Shape { segments: 32, span: 90, ..long };
    shell.write("undecided.job", &file(&long, 1))?;
    shell.write("full.job", &file(&short, 4))?;
    let a = std::fs::read(shell.root.join("examples/a.job"))?;
    shell.write("cut.job", &a[1..])?;
    // Job B with the first track as a performance track, and its first and its last connection as pieces of net 127, the first critical.
    shell.write("net-127.job", &[2, 1, 3, 6, 2, 0, 2, 6, 3, 5, 255, 4, 6, 0, 4, 4, 254, 17, 0, 9, 0, 6, 2, 3, 2])?;
    shell.write("none.job", &[2, 0, 3, 6, 4, 0, 0, 0, 6, 1, 0, 2])
}

/// A failure is told on standard error, and so is what a refusal means, by the command; `./route` says no more than its program.
fn one(shell: &Shell, checks: &mut Checks, line: &str, status: i32, out: &str) -> io::Result<()> {
    let ended = shell.line(line)?;
    let said = status < 3 || !ended.err.is_empty() || (status == 3 && line.contains("./route"));
    let whole = ended.status == Some(status) && ended.text() == out && said && !ended.err.contains("panicked");
    checks.check(whole, &format!("{line}: status {status}, {out:?}"), || ended.shown());
    Ok(())
}

/// A good answer on a full disk, on a closed output, into a pipe that nobody reads: status 4 and a message.
fn not_taken(shell: &Shell, checks: &mut Checks, line: &str) -> io::Result<()> {
    for (to, how) in [
        (format!("set -o pipefail; {line} > /dev/full"), "on a full device"),
        (format!("set -o pipefail; {line} >&-"), "with the output closed"),
        (format!("set -o pipefail; {{ {line}; }} 3>&1 >&- | cat"), "with the output closed and another open"),
        (format!("mkfifo cut && exec 4<>cut 5>cut 4<&- && rm cut && set -o pipefail && {line} >&5"), "into a pipe that nobody reads"),
        (format!("set -o pipefail; ulimit -f 0; {line} > limited"), "past the limit of a file's size"),
    ] {
        let ended = shell.line(&to)?;
        let said = ended.err.contains("could not be written whole") || ended.err.contains("is closed");
        checks.check(ended.status == Some(4) && said && !ended.err.contains("panicked"), &format!("{line}, {how}: status 4"), || ended.shown());
    }
    Ok(())
}

/// Room for 124 bytes of the answer, as on a disk that fills: status 4, and a file that is cut, for `./route` and for the command.
fn cut_short(shell: &Shell, checks: &mut Checks) -> io::Result<()> {
    for line in ["./route < full.job", "./silienvo route full.job"] {
        let ended = shell.line(&format!("head -c 900 /dev/zero > disk && ulimit -f 1 && {line} >> disk"))?;
        let long = std::fs::metadata(shell.folder.join("disk"))?.len();
        checks.check(ended.status == Some(4) && long == 1024, &format!("{line} with room for 124 bytes: status 4"), || ended.shown());
    }
    let whole = shell.line("./route < full.job")?;
    checks.check(whole.out.len() > 124 && whole.status == Some(0), "the whole answer is longer", || whole.shown());
    Ok(())
}

/// A program that is there, but older than its sources, where these cannot be built: it is not asked.
fn not_built(shell: &Shell, checks: &mut Checks) -> io::Result<()> {
    let prepare = "rm -rf stale && mkdir -p stale/{bin,crates,rust,docs,target/bin,target/staticlib,target/cargo/release} && cd stale && cp ../build ../route ../silienvo . \
        && printf '#!/bin/sh\\necho routed 4; echo 0 >&3\\n' | tee target/bin/router > target/cargo/release/silienvo && touch target/staticlib/libsilienvo.a \
        && chmod +x target/bin/router target/cargo/release/silienvo && touch -d '1 hour ago' target/bin/router target/cargo/release/silienvo target/staticlib/libsilienvo.a \
        && printf '#!/bin/sh\\nexit 1\\n' | tee bin/rt > bin/cargo && chmod +x bin/rt bin/cargo && touch crates.txt crates/new rust/new docs/statuses.txt Cargo.toml Cargo.lock";
    for line in ["./route < ../examples/a.job", "./silienvo route ../examples/a.job"] {
        let ended = shell.line(&format!("{prepare} && PATH=$PWD/bin:$PATH && {line}"))?;
        let said = ended.err.contains("could not be built");
        checks.check(ended.status == Some(4) && ended.out.is_empty() && said, &format!("{line}, older than its sources: status 4"), || ended.shown());
    }
    Ok(())
}

pub fn run(shell: &Shell, checks: &mut Checks) -> io::Result<()> {
    checks.group("statuses");
    prepare(shell)?;
    for (line, status, out) in LINES {
        one(shell, checks, line, status, out)?;
    }
    for line in GOOD {
        not_taken(shell, checks, line)?;
    }
    cut_short(shell, checks)?;
    not_built(shell, checks)
}
