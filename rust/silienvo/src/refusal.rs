//! A refusal as a value, an error, and words.

use std::error::Error;
use std::fmt;

/// A refusal: its number in the table of replies, and the place.
#[derive(Clone, Copy, Debug, PartialEq, Eq)]
pub struct Refusal {
    pub number: u32,
    pub place: u64,
}

impl Refusal {
    /// When a refusal with this number is given, as the table of replies has it.
    pub fn meaning(&self) -> &'static str {
        match self.number {
            1 => "the file is shorter than 8 bytes",
            2 => "N, T, M or K is outside its limits, connection bytes are not a multiple of 3, or a panel is full or of another N or T",
            3 => "a distance in the trailer is wrong",
            4 => "the track at this place breaks its rule or runs into the connections; one place behind the last track: bytes are left over",
            5 => "the connection at this place breaks its rule",
            6 => "the line at this place is not well-formed; place 0: the rules of `s`, `v` and `0` are broken",
            7 => "the literal at this place has a variable above V or one seen before; one place behind the last literal: variables are missing",
            8 => "the model makes the clause at this place false",
            9 => "the lent buffer is too short",
            10 => "the line number is above the number of clauses, or a panel has no connection of the number",
            11 => "the label at this place is outside 1 to T, barred, or collides with an earlier one; place 0: not M labels",
            _ => "a number that the table does not have",
        }
    }
}

impl fmt::Display for Refusal {
    fn fmt(&self, f: &mut fmt::Formatter) -> fmt::Result {
        write!(f, "refused {} {}: {}", self.number, self.place, self.meaning())
    }
}

impl Error for Refusal {}

#[cfg(test)]
mod tests {
    use super::*;

    #[test]
    fn every_number_of_the_table_has_its_words() {
        let unlisted = Refusal { number: 12, place: 0 }.meaning();
        assert!((1..=11).all(|number| Refusal { number, place: 0 }.meaning() != unlisted));
    }

    #[test]
    fn a_refusal_is_an_error_that_says_number_place_and_reason() {
        let refusal: Box<dyn Error> = Box::new(crate::read(b"short").unwrap_err());
        assert_eq!(refusal.to_string(), "refused 1 0: the file is shorter than 8 bytes");
    }
}
