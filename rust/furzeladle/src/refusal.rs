//! Why a call was refused, case by case.
use crate::raw;
use std::fmt;

/// Why a call was refused: the shed's word, and the row where there is one.
///
/// Requests add cases: a match has an arm for those to come.
///
/// ```
/// use furzeladle::{check, load, Refusal};
/// let file = b"     2     1\n   101    90      0    300\n   102    91      0      0\n";
/// let refusal = load(file, 1, &mut [0; 8]).unwrap_err();
/// assert_eq!(refusal, Refusal::RowOrder { row: Some(2) });
/// assert_eq!((refusal.number(), refusal.row()), (7, Some(2)));
/// assert_eq!((refusal.word(), refusal.meaning()), ("row order", "a score above the row before"));
/// assert_eq!(refusal.to_string(), "row order (7) in row 2: a score above the row before");
/// assert_eq!(check(b"", 1), Err(Refusal::CutFile));
/// ```
#[derive(Clone, Copy, Debug, PartialEq, Eq, Hash)]
#[non_exhaustive]
pub enum Refusal {
    /// 1: k outside 1 to 64.
    ListLength,
    /// 2: block outside 1 to 1,024.
    Block,
    /// 3: radius outside 0 to 40,000.
    Radius,
    /// 4: not whole rows, more than 65,535 rows, or other rows than at opening.
    TableSize,
    /// 5: a record that no session can have.
    Record,
    /// 6: a number outside its range.
    RowLimit {
        /// The row. None where a session or a whole query met it, which tell none.
        row: Option<u32>,
    },
    /// 7: a score above the row before.
    RowOrder {
        /// The row. None where a session or a whole query met it, which tell none.
        row: Option<u32>,
    },
    /// 8: the length is not that of a header and its rows.
    CutFile,
    /// 9: a number or line feed not formed as it should be.
    BadColumn {
        /// The row. None is the header.
        row: Option<u32>,
    },
    /// 10: not the kind of file that is wanted here.
    Kind,
    /// 11: fewer numbers lent than are to be written.
    ShortSlice,
    /// 12: a weight outside 1 to 9.
    Weight,
    /// 15: the two tables are on different cards.
    Cards,
    /// 16: a tolerance outside 0 to 500.
    Tolerance,
    /// A number that this crate has no name for, of a library that is newer.
    Unnamed {
        /// The number.
        number: u32,
        /// The row, where there is one.
        row: Option<u32>,
    },
}

impl Refusal {
    /// The rules' number.
    #[must_use]
    pub fn number(self) -> u32 {
        raw::Refusal::from(self).number
    }

    /// The row, numbered from 1, where there is one.
    #[must_use]
    pub fn row(self) -> Option<u32> {
        match self {
            Refusal::RowLimit { row }
            | Refusal::RowOrder { row }
            | Refusal::BadColumn { row }
            | Refusal::Unnamed { row, .. } => row,
            _ => None,
        }
    }

    /// The shed's word for it.
    #[must_use]
    pub fn word(self) -> &'static str {
        raw::Refusal::from(self).word()
    }

    /// When a call is refused so.
    #[must_use]
    pub fn meaning(self) -> &'static str {
        raw::Refusal::from(self).meaning()
    }
}

impl From<raw::Refusal> for Refusal {
    fn from(raw::Refusal { number, row }: raw::Refusal) -> Refusal {
        let row = (row > 0).then_some(row);
        match number {
            1 => Refusal::ListLength,
            2 => Refusal::Block,
            3 => Refusal::Radius,
            4 => Refusal::TableSize,
            5 => Refusal::Record,
            6 => Refusal::RowLimit { row },
            7 => Refusal::RowOrder { row },
            8 => Refusal::CutFile,
            9 => Refusal::BadColumn { row },
            10 => Refusal::Kind,
            11 => Refusal::ShortSlice,
            12 => Refusal::Weight,
            15 => Refusal::Cards,
            16 => Refusal::Tolerance,
            _ => Refusal::Unnamed { number, row },
        }
    }
}

impl From<Refusal> for raw::Refusal {
    fn from(refusal: Refusal) -> raw::Refusal {
        let number = match refusal {
            Refusal::ListLength => 1,
            Refusal::Block => 2,
            Refusal::Radius => 3,
            Refusal::TableSize => 4,
            Refusal::Record => 5,
            Refusal::RowLimit { .. } => 6,
            Refusal::RowOrder { .. } => 7,
            Refusal::CutFile => 8,
            Refusal::BadColumn { .. } => 9,
            Refusal::Kind => 10,
            Refusal::ShortSlice => 11,
            Refusal::Weight => 12,
            Refusal::Cards => 15,
            Refusal::Tolerance => 16,
            Refusal::Unnamed { number, .. } => number,
        };
        let row = refusal.row().unwrap_or(0);
        raw::Refusal { number, row }
    }
}

impl fmt::Display for Refusal {
    fn fmt(&self, to: &mut fmt::Formatter) -> fmt::Result {
        raw::Refusal::from(*self).fmt(to)
    }
}

impl std::error::Error for Refusal {}
