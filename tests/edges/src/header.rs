//! The header: the example over every function, compiled as C and as C++ and run; the stack that a call touches; what the archive asks for; what is said
//! where it is missing.

use crate::checks::Checks;
use crate::shell::Shell;
use std::io;

const COMPILERS: [&str; 4] = ["gcc -std=c99 -x c", "gcc -std=c17 -x c", "g++ -std=c++11 -x c++", "g++ -std=c++20 -x c++"];
const STRICT: &str = "-Wall -Wextra -Werror -pedantic -Iinclude";
const ARCHIVE: &str = "target/staticlib/libsilienvo.a";

/// What the example prints for job A.
const PRINTED: &str = "\
job: N = 6, T = 2, M = 3, K = 2, connections from byte 8
route: routed after 4 trials: 1 2 1
judge: legal
1 1 1 1
2 2 2 2
3 1 2 2
p cnf 3 3
1 2 0
2 3 0
-2 -3 0
reply: unknown
reply: refused 6 0
P1: a file of 64 bytes
P1: routed after 8 trials: 1 7
panel: 2 connections, loads 1 1 2 2 1 1, red at column 3
panel: 2 connections, loads 1 1 1 1 1 1
panel: 2 connections, loads 1 0 1 1 1 1
panel: refused 5 3
panel: 0 connections, loads 0 0 0 0 0 0
panel: routed after 8 trials: 1 7
";

/// The functions that the header declares.
fn functions(header: &str) -> Vec<&str> {
    let declared = |line: &&str| line.starts_with("Silienvo") || line.starts_with("void ");
    header.lines().filter(declared).filter_map(|line| line[..line.find('(')?].split(' ').next_back()).collect()
}

pub fn run(shell: &Shell, checks: &mut Checks) -> io::Result<()> {
    checks.group("header");
    let header = std::fs::read_to_string(shell.root.join("include/silienvo.h"))?;
    let functions = functions(&header);
    checks.check(functions.len() >= 15, "the header's functions are found", || format!("{functions:?}"));
    for program in ["examples/route.c", "tests/stack.c", "rust/silienvo/src/exports.rs"] {
        let source = std::fs::read_to_string(shell.root.join(program))?;
        for function in &functions {
            checks.check(source.contains(&format!("{function}(")), &format!("{program} has {function}"), String::new);
        }
    }
    for compiler in COMPILERS {
        let ended = shell.line(&format!("{compiler} {STRICT} examples/route.c -x none {ARCHIVE} -o route-c && ./route-c examples/a.job"))?;
        checks.check(ended.status == Some(0) && ended.text() == PRINTED && ended.err.is_empty(), &format!("{compiler} examples/route.c"), || {
            ended.shown()
        });
    }
    let ended =
        shell.line("./route-c examples/b.job | head -n 2 | tail -n 1; ./route-c examples/a.job > /dev/full; echo $?; ./route-c cut.job; echo $?")?;
    checks.check(ended.text() == "route: no routing exists, after 10 trials\n4\njob: refused 3 0\n3\n", "route-c tells the rest", || ended.shown());
    let ended = shell.line(&format!("gcc -std=c11 -O2 -pthread {STRICT} tests/stack.c {ARCHIVE} -o stack && ./stack"))?;
    print!("{}", ended.text());
    checks.check(ended.status == Some(0), "no call touches more stack than the header says", || ended.shown());
    let ended = shell.line(&format!("nm -u {ARCHIVE} | awk 'NF > 1 {{ print $2 }}'"))?;
    checks.check(ended.text() == "memcpy\nmemset\n", "the archive asks for two functions of C", || ended.shown());
    let ended = shell.line("CARGO_TARGET_DIR=$PWD/cargo SILIENVO_LIBRARY=$PWD/nowhere cargo check --offline --quiet --package silienvo")?;
    let named = ended.err.contains("./build library");
    checks.check(ended.status != Some(0) && named, "a missing archive names the command that makes it", || ended.shown());
    Ok(())
}
