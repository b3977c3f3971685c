//! The two tables, the shade cards, and the kinds that come of both.
use crate::sys;
use std::fmt;

/// Which of the two tables.
#[derive(Clone, Copy, Debug, PartialEq, Eq, Hash)]
pub enum Table {
    /// Fields.
    Field = 1,
    /// Trim: borders and stair runners.
    Trim = 2,
}

impl Table {
    /// The number of this table's kind on a card, as strict files name it.
    ///
    /// ```
    /// use furzeladle::{Card, Table};
    /// assert_eq!((Table::Field.kind(Card::Old), Table::Trim.kind(Card::Old)), (1, 2));
    /// assert_eq!((Table::Field.kind(Card::New), Table::Trim.kind(Card::New)), (3, 4));
    /// ```
    #[must_use]
    pub const fn kind(self, card: Card) -> i32 {
        match card {
            Card::Old => self as i32,
            Card::New => self as i32 + 2,
        }
    }
}

impl fmt::Display for Table {
    fn fmt(&self, to: &mut fmt::Formatter) -> fmt::Result {
        to.pad(match self {
            Table::Field => "field",
            Table::Trim => "trim",
        })
    }
}

/// A shade card: what a shade is measured by, in hundredths.
///
/// ```
/// use furzeladle::Card;
/// assert_eq!(Card::default(), Card::Old);
/// assert_eq!((Card::Old.width(), Card::New.width()), (4, 5));
/// assert_eq!((Card::Old.row_bytes(), Card::New.row_bytes()), (27, 33));
/// ```
#[derive(Clone, Copy, Debug, Default, PartialEq, Eq, Hash)]
pub enum Card {
    /// a\* and b\*: a row is pattern number, score, a, b.
    #[default]
    Old = 2,
    /// a\*, b\* and L\*: a row is pattern number, score, a, b, L.
    New = 3,
}

impl Card {
    /// How many numbers a row has.
    #[must_use]
    pub const fn width(self) -> usize {
        match self {
            Card::Old => sys::OLD_ROW,
            Card::New => sys::NEW_ROW,
        }
    }

    /// How many bytes a row has in a strict file.
    #[must_use]
    pub const fn row_bytes(self) -> usize {
        match self {
            Card::Old => sys::OLD_ROW_BYTES,
            Card::New => sys::NEW_ROW_BYTES,
        }
    }

    /// The card that a record names by the number of its coordinates.
    pub(crate) fn named(coordinates: u32) -> Option<Card> {
        [Card::Old, Card::New]
            .into_iter()
            .find(|card| *card as u32 == coordinates)
    }
}

impl fmt::Display for Card {
    fn fmt(&self, to: &mut fmt::Formatter) -> fmt::Result {
        to.pad(match self {
            Card::Old => "old card",
            Card::New => "new card",
        })
    }
}

/// What a table is: which of the two, and on which card. Strict files name it by a number, 1 to 4.
///
/// ```
/// use furzeladle::{Card, Kind, Table};
/// let kind = Kind::named_by(b"     1     3\n   101    90      0    300  5000\n").unwrap();
/// assert_eq!((kind.table, kind.card, kind.number()), (Table::Field, Card::New, 3));
/// assert_eq!(kind.to_string(), "field on the new card");
/// assert_eq!(Kind::named_by(b"no strict file at all"), None);
/// ```
#[derive(Clone, Copy, Debug, PartialEq, Eq, Hash)]
pub struct Kind {
    /// Which of the two tables.
    pub table: Table,
    /// On which card.
    pub card: Card,
}

impl Kind {
    /// All there are, in the order of their numbers.
    pub const ALL: [Kind; 4] = [
        Kind::new(Table::Field, Card::Old),
        Kind::new(Table::Trim, Card::Old),
        Kind::new(Table::Field, Card::New),
        Kind::new(Table::Trim, Card::New),
    ];

    /// This table's on this card.
    #[must_use]
    pub const fn new(table: Table, card: Card) -> Kind {
        Kind { table, card }
    }

    /// Its number, 1 to 4.
    #[must_use]
    pub const fn number(self) -> i32 {
        self.table.kind(self.card)
    }

    /// The kind of a number, if it is one's.
    #[must_use]
    pub fn numbered(number: i32) -> Option<Kind> {
        Kind::ALL.into_iter().find(|kind| kind.number() == number)
    }

    /// The kind that a strict file names: columns 7-12 are five blanks and its digit. Nothing else of the file is
    /// looked at, so that whatever is wrong with it is left to the reading.
    #[must_use]
    pub fn named_by(bytes: &[u8]) -> Option<Kind> {
        let columns = bytes.get(6..12)?;
        let named = |kind: &Kind| format!("{:>6}", kind.number()).as_bytes() == columns;
        Kind::ALL.into_iter().find(named)
    }
}

impl From<Kind> for i32 {
    fn from(kind: Kind) -> i32 {
        kind.number()
    }
}

impl fmt::Display for Kind {
    fn fmt(&self, to: &mut fmt::Formatter) -> fmt::Result {
        write!(to, "{} on the {}", self.table, self.card)
    }
}
