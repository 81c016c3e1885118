//! Replies of a solver: spelled from codes, as solvers spell them or stranger, then damaged or cut.

use super::{damage, Rng};

/// The literals that spell codes of `width` bits, in variable order.
pub fn spelled(codes: &[usize], width: usize) -> Vec<i64> {
    let mut all = Vec::new();
    for &code in codes {
        for b in (0..width).rev() {
            let variable = all.len() as i64 + 1;
            all.push(if code >> b & 1 == 1 { variable } else { -variable });
        }
    }
    all
}

/// `v` lines over words, a few words to each.
fn value_lines(rng: &mut Rng, words: &[String]) -> Vec<Vec<u8>> {
    let most = rng.pick(&[1, 3, 20, 1000]);
    let mut rest = words;
    let mut lines = Vec::new();
    while !rest.is_empty() {
        let (now, then) = rest.split_at(rng.from_to(1, most).min(rest.len()));
        lines.push(format!("v {}", now.join(" ")).into_bytes());
        rest = then;
    }
    lines
}

/// A word that is a literal, or nearly.
fn strange_word(rng: &mut Rng) -> String {
    match rng.below(4) {
        0 => rng.pick(&["0", "00", "-0", "01", "-01", "1000", "-1000", "+1", "", "-", "--1", "1-", "x", "999", "-999", "385", "384"]).to_string(),
        1 => format!("{}", rng.from_to(1, 400)),
        2 => format!("-{}", rng.from_to(1, 999)),
        _ => format!("{}", rng.from_to(1, 12)),
    }
}

fn strange_line(rng: &mut Rng) -> Vec<u8> {
    match rng.below(4) {
        0 => {
            let all: [&[u8]; 18] = [
                b"",
                b"c",
                b"c ",
                b"c \r",
                b"cc",
                b"c\t",
                b"C ",
                b" ",
                b"v",
                b"v ",
                b"v  1",
                b"v 1 ",
                b"v 1\r",
                b"s",
                b"s ",
                b"s SATISFIABLE ",
                b"s satisfiable",
                b"SATISFIABLE",
            ];
            rng.pick(&all).to_vec()
        }
        1 => {
            let all: [&[u8]; 7] =
                [b"s SATISFIABLE", b"s UNSATISFIABLE", b"s UNKNOWN", b"s UNKNOWNS", b"s UNSATISFIABL", b"s SATISFIABLE\r", b"s UNSAT"];
            rng.pick(&all).to_vec()
        }
        2 => {
            let length = rng.from_to(0, 9);
            let mut line = b"c ".to_vec();
            line.extend(rng.bytes(length).iter().map(|&b| if b == b'\n' { b'\r' } else { b }));
            line
        }
        _ => format!("v {}", strange_word(rng)).into_bytes(),
    }
}

fn join(rng: &mut Rng, lines: &[Vec<u8>]) -> Vec<u8> {
    let mut text = lines.join(&b'\n');
    if !rng.once_in(3) {
        text.push(b'\n');
    }
    text
}

/// A reply to a job whose codes have `width` bits.
pub fn reply(rng: &mut Rng, codes: &[usize], width: usize) -> Vec<u8> {
    let mut literals = spelled(codes, width);
    if rng.once_in(3) {
        rng.shuffle(&mut literals);
    }
    let mut words: Vec<String> = literals.iter().map(i64::to_string).collect();
    words.push("0".to_string());
    match rng.below(14) {
        0 => drop(words.remove(rng.below(words.len()))),
        1 => words.insert(rng.below(words.len() + 1), strange_word(rng)),
        2 => {
            let (from, to) = (rng.below(words.len()), rng.below(words.len()));
            words[to] = words[from].clone();
        }
        3 => words.truncate(rng.below(words.len() + 1)),
        4 => {
            let from = rng.below(words.len());
            words.drain(from..words.len() - 1);
        }
        _ => {}
    }
    let mut lines = value_lines(rng, &words);
    match rng.below(12) {
        0 => lines = vec![b"s UNSATISFIABLE".to_vec()],
        1 => lines = vec![b"s UNKNOWN".to_vec()],
        2 => lines.insert(0, rng.pick(&[b"s UNSATISFIABLE", b"s SATISFIABLE\n\n"]).to_vec()),
        3 => lines.insert(0, b"s UNKNOWN".to_vec()),
        4 => {}
        5 => lines.insert(rng.below(lines.len() + 1), b"s SATISFIABLE".to_vec()),
        6 => lines = vec![b"s SATISFIABLE".to_vec()],
        _ => lines.insert(0, b"s SATISFIABLE".to_vec()),
    }
    for _ in 0..rng.pick(&[0, 0, 0, 1, 2]) {
        let at = rng.below(lines.len() + 1);
        lines.insert(at, if rng.once_in(2) { rng.pick(&[&b"c a remark"[..], b"", b"c", b"c \xff\r"]).to_vec() } else { strange_line(rng) });
    }
    let text = join(rng, &lines);
    match rng.below(5) {
        0 => damage(rng, &text),
        _ => text,
    }
}

/// Every beginning of a text, the empty one and the whole included.
pub fn cuts(text: &[u8]) -> impl Iterator<Item = &[u8]> {
    (0..=text.len()).map(|n| &text[..n])
}
