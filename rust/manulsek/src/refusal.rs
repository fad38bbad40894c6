//! Refusals: a number, and a place where the number has one.

use std::error::Error;
use std::fmt::{self, Display, Formatter};

/// Why a call was refused. `Display` says it in a sentence.
///
/// `row` and `col` count from 0 and tell a place for the numbers 6, 8, 9 and 11; for the others both
/// are 0.
#[derive(Clone, Copy, Debug, PartialEq, Eq, Hash)]
pub struct Refusal {
    pub number: u32,
    pub row: usize,
    pub col: usize,
}

impl Refusal {
    /// What an answer of the library's says: the number of an accepted call, which is below 2^32, or
    /// the refusal, number * 2^32 + row * 2^16 + col.
    pub fn of(answer: u64) -> Result<u32, Refusal> {
        let number = (answer >> 32) as u32;
        if number == 0 {
            return Ok(answer as u32);
        }
        Err(Refusal {
            number,
            row: (answer >> 16) as usize & 0xffff,
            col: answer as usize & 0xffff,
        })
    }
}

impl Display for Refusal {
    fn fmt(&self, f: &mut Formatter<'_>) -> fmt::Result {
        let Refusal { number, row, col } = self;
        match number {
            1 => write!(f, "the order is 0"),
            2 => write!(f, "the order is above 64"),
            3 => write!(f, "a slice has not the length that belongs to the order"),
            4 => write!(f, "the tolerance is not a number from 0 to below 1"),
            5 => write!(f, "the budget is not from 1 to 1000000"),
            6 => write!(f, "the entry at row {row}, column {col} is NaN or infinite"),
            7 => write!(f, "the counted passes reached the budget"),
            8 => write!(
                f,
                "the result at row {row}, column {col} is NaN or infinite"
            ),
            9 => write!(
                f,
                "the entry at row {row}, column {col} spoils the quasi-triangular shape"
            ),
            10 => write!(f, "some eigenvalues are complex"),
            11 => write!(
                f,
                "the block at row {row}, column {col} has no complex pair: its discriminant is above 0 or NaN"
            ),
            _ => write!(f, "refused with the number {number}, row {row}, column {col}"),
        }
    }
}

impl Error for Refusal {}

#[cfg(test)]
mod tests {
    use super::*;

    #[test]
    fn answers_are_taken_apart() {
        assert_eq!(Refusal::of(0), Ok(0));
        assert_eq!(Refusal::of(999_999), Ok(999_999));
        let refusal = |number, row, col| Err(Refusal { number, row, col });
        assert_eq!(Refusal::of(1 << 32), refusal(1, 0, 0));
        assert_eq!(Refusal::of((6 << 32) + (2 << 16) + 1), refusal(6, 2, 1));
        assert_eq!(
            Refusal::of((11 << 32) + (62 << 16) + 63),
            refusal(11, 62, 63)
        );
    }

    /// Each number has a sentence of its own, and tells the place where it has one.
    #[test]
    fn sentences_tell_the_place() {
        let said = |number| {
            Refusal {
                number,
                row: 41,
                col: 57,
            }
            .to_string()
        };
        let all: Vec<String> = (1..=11).map(said).collect();
        for (place, sentence) in all.iter().enumerate() {
            let number = place + 1;
            let placed = sentence.contains("row 41, column 57");
            assert_eq!(placed, [6, 8, 9, 11].contains(&number), "{sentence}");
            assert!(!all[..place].contains(sentence), "{sentence}");
            assert!(!sentence.starts_with("refused"), "{sentence}");
        }
        let refusal: Box<dyn Error> = Box::new(Refusal {
            number: 4,
            row: 0,
            col: 0,
        });
        assert_eq!(
            refusal.to_string(),
            "the tolerance is not a number from 0 to below 1"
        );
    }
}
