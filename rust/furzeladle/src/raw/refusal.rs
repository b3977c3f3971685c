//! Refusals by their numbers, and the words for them.
use std::fmt;

/// Why a call was refused: the rules' number, and the row for those of a table's or a file's 6, 7 and 9 (else 0).
#[derive(Clone, Copy, Debug, PartialEq, Eq, Hash)]
pub struct Refusal {
    /// The rules' number.
    pub number: u32,
    /// The row, numbered from 1. 0 is the header of a file, or none.
    pub row: u32,
}

/// Each number, the shed's word for it, and when a call is refused so.
const WORDS: [(u32, &str, &str); 14] = [
    (1, "list length", "k outside 1 to 64"),
    (2, "block", "block outside 1 to 1,024"),
    (3, "radius", "radius outside 0 to 40,000"),
    (
        4,
        "table size",
        "not whole rows, more than 65,535 rows, or other rows than at opening",
    ),
    (5, "record", "a record that no session can have"),
    (6, "row limit", "a number outside its range"),
    (7, "row order", "a score above the row before"),
    (
        8,
        "cut file",
        "the length is not that of a header and its rows",
    ),
    (
        9,
        "bad column",
        "a number or line feed not formed as it should be",
    ),
    (10, "kind", "not the kind of file that is wanted here"),
    (
        11,
        "short slice",
        "fewer numbers lent than are to be written",
    ),
    (12, "weight", "a weight outside 1 to 9"),
    (15, "cards", "the two tables are on different cards"),
    (16, "tolerance", "a tolerance outside 0 to 500"),
];

impl Refusal {
    /// The shed's word for it.
    #[must_use]
    pub fn word(self) -> &'static str {
        self.words().0
    }

    /// When a call is refused so.
    #[must_use]
    pub fn meaning(self) -> &'static str {
        self.words().1
    }

    fn words(self) -> (&'static str, &'static str) {
        WORDS
            .iter()
            .find(|(number, ..)| *number == self.number)
            .map_or(
                ("unnamed", "a number that this crate has no words for"),
                |(_, word, meaning)| (word, meaning),
            )
    }

    /// What a negative answer of an export says.
    pub(crate) fn of(answer: i32) -> Refusal {
        Refusal {
            number: answer.unsigned_abs() % 100,
            row: answer.unsigned_abs() / 100,
        }
    }
}

impl fmt::Display for Refusal {
    fn fmt(&self, to: &mut fmt::Formatter) -> fmt::Result {
        write!(to, "{} ({})", self.word(), self.number)?;
        match self {
            Refusal { number: 9, row: 0 } => write!(to, " in the header")?,
            Refusal { row: 0, .. } => {}
            Refusal { row, .. } => write!(to, " in row {row}")?,
        }
        write!(to, ": {}", self.meaning())
    }
}

impl std::error::Error for Refusal {}
