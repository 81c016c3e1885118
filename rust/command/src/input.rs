//! Words and files of a command line.

use crate::status::Failure;
use std::ffi::{OsStr, OsString};

/// The budget of the routing program.
const BUDGET: u32 = 1_000_000;

/// A word or a file's name as it is shown: control characters and bytes that are no text as escapes, so that a name stays within its line.
pub fn shown(name: &OsStr) -> String {
    let mut text = String::new();
    for chunk in name.as_encoded_bytes().utf8_chunks() {
        for c in chunk.valid().chars() {
            if c.is_control() {
                text.extend(c.escape_default());
            } else {
                text.push(c);
            }
        }
        for byte in chunk.invalid() {
            text.push_str(&format!("\\x{byte:02x}"));
        }
    }
    text
}

/// A file's bytes.
pub fn file(name: &OsStr) -> Result<Vec<u8>, Failure> {
    std::fs::read(name).map_err(|error| Failure::new(format!("{} could not be read: {error}", shown(name))))
}

/// The one word of a command line that takes one.
pub fn only<'a>(words: &'a [OsString], what: &str) -> Result<&'a OsString, Failure> {
    match words {
        [word] => Ok(word),
        [] => Err(Failure::new(format!("{what} is missing"))),
        [_, more, ..] => Err(Failure::new(format!("`{}` is one word too many", shown(more)))),
    }
}

/// A number that must fit.
pub fn number<N: std::str::FromStr>(word: &OsStr, what: &str) -> Result<N, Failure> {
    let digits = word.to_str().filter(|text| !text.is_empty() && text.bytes().all(|b| b.is_ascii_digit()));
    digits.and_then(|text| text.parse().ok()).ok_or_else(|| Failure::new(format!("{what} is a number in its limits, not `{}`", shown(word))))
}

/// `--budget N`, if it is there, and the other words. Behind `--` a word is no option.
pub fn budget(words: &[OsString]) -> Result<(u32, Vec<OsString>), Failure> {
    let (mut budget, mut rest) = (BUDGET, Vec::new());
    let mut words = words.iter();
    while let Some(word) = words.next() {
        let text = word.to_string_lossy();
        if word == "--" {
            rest.extend(words.cloned());
            break;
        } else if word == "--budget" {
            let given = words.next().ok_or_else(|| Failure::new("the number behind --budget is missing"))?;
            budget = number(given, "a budget")?;
        } else if let Some(given) = text.strip_prefix("--budget=") {
            budget = number(OsStr::new(given), "a budget")?;
        } else if text.starts_with("--") {
            return Err(Failure::new(format!("no option `{}`", shown(word))));
        } else {
            rest.push(word.clone());
        }
    }
    Ok((budget, rest))
}

#[cfg(test)]
mod tests {
    use super::*;
    use std::os::unix::ffi::OsStrExt;

    #[test]
    fn a_name_stays_within_its_line() {
        assert_eq!(shown(OsStr::from_bytes(b"a b\n\xff\xc3\xa9.job\x1b")), "a b\\n\\xff\u{e9}.job\\u{1b}");
    }

    #[test]
    fn a_number_is_digits_that_fit() {
        assert_eq!(number::<u32>(OsStr::new("4294967295"), "").ok(), Some(u32::MAX));
        for word in ["", "4294967296", "+1", "-1", "1 ", "0x1", "one"] {
            assert!(number::<u32>(OsStr::new(word), "").is_err(), "{word}");
        }
    }

    #[test]
    fn behind_two_dashes_a_word_is_no_option() {
        let words: Vec<OsString> = ["--budget", "7", "a", "--", "--budget"].map(OsString::from).into();
        let (budget, rest) = budget(&words).unwrap();
        assert_eq!((budget, rest), (7, ["a", "--budget"].map(OsString::from).into()));
    }
}
