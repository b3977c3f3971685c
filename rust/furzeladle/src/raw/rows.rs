//! Tables checked whole, their card known, which of the two they are not.
use super::{load, Refusal, Session};
use crate::{sys, Card, Query, Table};

/// A table's rows, every one of them checked, and the card that says how many numbers make a row.
#[derive(Clone, Debug, PartialEq, Eq)]
pub struct Rows {
    card: Card,
    numbers: Vec<i32>,
}

impl Rows {
    /// Reads a strict file, of this table's kind on this card. Refused by 8, 9, 10, 4, 6 or 7.
    ///
    /// ```
    /// use furzeladle::{raw::Rows, Card, Table};
    /// let file = b"     1     3\n   101    90      0    300  5000\n";
    /// let rows = Rows::read(file, Table::Field, Card::New).unwrap();
    /// assert_eq!(rows.numbers(), [101, 90, 0, 300, 5000]);
    /// assert_eq!((rows.card(), rows.count()), (Card::New, 1));
    /// assert_eq!(Rows::read(file, Table::Field, Card::Old).unwrap_err().number, 10);
    /// ```
    pub fn read(bytes: &[u8], table: Table, card: Card) -> Result<Rows, Refusal> {
        // an accepted file has exactly so many rows
        let most = bytes.len().saturating_sub(sys::HEADER_BYTES) / card.row_bytes();
        let mut numbers = vec![0; card.width() * most];
        let count = load(bytes, table.kind(card), &mut numbers)?;
        numbers.truncate(card.width() * count as usize);
        Ok(Rows { card, numbers })
    }

    /// Takes the numbers of all rows on this card. Refused as [`check_rows`] refuses them.
    pub fn of(numbers: Vec<i32>, card: Card) -> Result<Rows, Refusal> {
        check_rows(&numbers, card)?;
        Ok(Rows { card, numbers })
    }

    /// The card.
    #[must_use]
    pub fn card(&self) -> Card {
        self.card
    }

    /// How many rows there are.
    #[must_use]
    pub fn count(&self) -> usize {
        self.numbers.len() / self.card.width()
    }

    /// All numbers, row by row, as a session is lent them.
    #[must_use]
    pub fn numbers(&self) -> &[i32] {
        &self.numbers
    }

    /// The same, given away.
    #[must_use]
    pub fn into_numbers(self) -> Vec<i32> {
        self.numbers
    }
}

/// How many rows the numbers of a whole table are, on this card. Refused by 4, or by 6 or 7 of the first row that is
/// not legal, with its number.
///
/// The library does the checking: of a session that has read a table to some depth, a take checks every row down to
/// there. So a session is opened over the table as fields, and its record is made to say that all of them are read. No
/// session gets there over a trim table without rows, but no rule refuses the record. Rules written again in Rust would
/// be shorter, and nothing would prove them.
///
/// ```
/// use furzeladle::{raw::{check_rows, Refusal}, Card};
/// assert_eq!(check_rows(&[101, 90, 0, 0, 102, 80, 100, 0], Card::Old), Ok(2));
/// assert_eq!(check_rows(&[101, 90, 0, 0, 102, 91, 100, 0], Card::Old), Err(Refusal { number: 7, row: 2 }));
/// assert_eq!(check_rows(&[101, 90, 0, 0], Card::New), Err(Refusal { number: 4, row: 0 }));
/// ```
pub fn check_rows(numbers: &[i32], card: Card) -> Result<u32, Refusal> {
    // blocks of one row: every depth is one that a record may have
    let opened = Session::open(Query::new(1).block(1).on(card), numbers, &[])?;
    let rows = opened.record()[sys::AT_FIELD_ROWS];
    let Some(refusal) = refused_down_to(rows, numbers, &opened) else {
        return Ok(rows);
    };
    let (mut legal, mut refused) = (0, rows);
    while refused - legal > 1 {
        let between = legal + (refused - legal) / 2;
        match refused_down_to(between, numbers, &opened) {
            None => legal = between,
            Some(_) => refused = between,
        }
    }
    let row = refused;
    Err(Refusal { row, ..refusal })
}

/// The refusal of the first so many rows, if there is one: that of the first row that is not legal.
fn refused_down_to(depth: u32, numbers: &[i32], opened: &Session) -> Option<Refusal> {
    let mut record = *opened.record();
    record[sys::AT_FIELD_DEPTH] = depth;
    record[sys::AT_LAST] = if depth > 0 { Table::Field as u32 } else { 0 };
    Session::from_record(record).take(numbers, &[]).err()
}
