//! The table of replies by number: the rows that fit a call, and the first that holds.

use crate::Refusal;

/// The order in which the table is printed.
const PRINTED: [u32; 11] = [1, 2, 3, 4, 5, 9, 6, 7, 8, 10, 11];

/// A row that fits a call: its number, and its place if it holds. A row may lean on those printed before it not holding.
pub struct Row<'a> {
    number: u32,
    place: Box<dyn Fn() -> Option<u64> + 'a>,
}

impl<'a> Row<'a> {
    pub fn new(number: u32, place: impl Fn() -> Option<u64> + 'a) -> Row<'a> {
        Row { number, place: Box::new(place) }
    }
}

/// A refusal is given exactly when a row holds; where several do, the first in the table decides.
pub fn decide(rows: &[Row]) -> Result<(), Refusal> {
    for number in PRINTED {
        for row in rows.iter().filter(|row| row.number == number) {
            if let Some(place) = (row.place)() {
                return Err(Refusal { number, place });
            }
        }
    }
    Ok(())
}
