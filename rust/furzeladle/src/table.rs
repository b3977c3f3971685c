//! Tables checked whole, field and trim apart by their types.
use crate::raw::Rows;
use crate::{Card, Kind, Refusal, Table};
use std::fmt;
use std::marker::PhantomData;

/// How many field rows: a count, or a depth. Never taken for one of trim rows.
#[derive(Clone, Copy, Debug, Default, PartialEq, Eq, PartialOrd, Ord, Hash)]
pub struct FieldRows(pub u32);

/// How many trim rows: a count, or a depth. Never taken for one of field rows.
#[derive(Clone, Copy, Debug, Default, PartialEq, Eq, PartialOrd, Ord, Hash)]
pub struct TrimRows(pub u32);

impl From<u32> for FieldRows {
    fn from(rows: u32) -> FieldRows {
        FieldRows(rows)
    }
}

impl From<u32> for TrimRows {
    fn from(rows: u32) -> TrimRows {
        TrimRows(rows)
    }
}

impl fmt::Display for FieldRows {
    fn fmt(&self, to: &mut fmt::Formatter) -> fmt::Result {
        self.0.fmt(to)
    }
}

impl fmt::Display for TrimRows {
    fn fmt(&self, to: &mut fmt::Formatter) -> fmt::Result {
        self.0.fmt(to)
    }
}

mod sealed {
    pub trait Sealed {}
    impl Sealed for super::Field {}
    impl Sealed for super::Trim {}
}

/// Which of the two a table is, as a type: [`Field`] or [`Trim`].
pub trait Side: sealed::Sealed {
    /// The same as a value.
    const TABLE: Table;
    /// A count of its rows.
    type Count: From<u32>;
}

/// The field table's side.
#[derive(Clone, Copy, Debug, PartialEq, Eq, Hash)]
pub enum Field {}

/// The trim table's side.
#[derive(Clone, Copy, Debug, PartialEq, Eq, Hash)]
pub enum Trim {}

impl Side for Field {
    const TABLE: Table = Table::Field;
    type Count = FieldRows;
}

impl Side for Trim {
    const TABLE: Table = Table::Trim;
    type Count = TrimRows;
}

/// The field table, checked whole.
///
/// ```
/// use furzeladle::{Card, FieldRows, FieldTable, Refusal};
/// let table = FieldTable::from_file(b"     1     3\n   101    90      0    300  5000\n")?;
/// assert_eq!((table.card(), table.count()), (Card::New, FieldRows(1)));
/// assert_eq!(table.row(1).unwrap().lightness, Some(5_000));
///
/// let falling = [101, 90, 0, 0, 102, 80, 100, 0]; // number, score, a, b of each row
/// assert_eq!(FieldTable::from_numbers(falling, Card::Old)?.count(), FieldRows(2));
/// let rising = [101, 90, 0, 0, 102, 91, 100, 0];
/// assert_eq!(FieldTable::from_numbers(rising, Card::Old), Err(Refusal::RowOrder { row: Some(2) }));
/// # Ok::<(), Refusal>(())
/// ```
pub type FieldTable = TableOf<Field>;

/// The trim table, borders and stair runners together, checked whole.
///
/// It is never lent as the field table:
///
/// ```compile_fail
/// # use furzeladle::{Card, Query, Session, TrimTable};
/// let trim = TrimTable::from_numbers([201, 70, 3, 4], Card::Old).unwrap();
/// let session = Session::open(Query::new(1), &trim, &trim);
/// ```
pub type TrimTable = TableOf<Trim>;

/// A table that was checked whole, every row of it, with its kind: [`FieldTable`] or [`TrimTable`].
#[derive(Clone, PartialEq, Eq)]
pub struct TableOf<S> {
    rows: Rows,
    side: PhantomData<S>,
}

impl<S: Side> TableOf<S> {
    /// Reads a strict file, on the card that it names: the new one where columns 7-12 are five blanks and the digit of
    /// this table's kind on it, else the old one. Refused by 8, 9, 10, 4, 6 or 7.
    ///
    /// ```
    /// use furzeladle::{Card, FieldTable, Refusal, TrimTable};
    /// let file = b"     1     2\n   201    70      3      4\n";
    /// assert_eq!(TrimTable::from_file(file)?.card(), Card::Old);
    /// assert_eq!(FieldTable::from_file(file), Err(Refusal::Kind));
    /// # Ok::<(), Refusal>(())
    /// ```
    pub fn from_file(bytes: &[u8]) -> Result<TableOf<S>, Refusal> {
        // a file of the other table is refused by 10 on either card
        let card = Kind::named_by(bytes).map_or(Card::Old, |kind| kind.card);
        Self::from_file_on(bytes, card)
    }

    /// Reads a strict file that is to be on this card. Refused by 8, 9, 10, 4, 6 or 7.
    pub fn from_file_on(bytes: &[u8], card: Card) -> Result<TableOf<S>, Refusal> {
        Ok(Self::of(Rows::read(bytes, S::TABLE, card)?))
    }

    /// Takes the numbers of all rows on this card: pattern number, score, a and b of each, and L on the new card.
    /// Refused by 4, or by 6 or 7 of the first row that is not legal.
    pub fn from_numbers(numbers: impl Into<Vec<i32>>, card: Card) -> Result<TableOf<S>, Refusal> {
        Ok(Self::of(Rows::of(numbers.into(), card)?))
    }

    fn of(rows: Rows) -> TableOf<S> {
        let side = PhantomData;
        TableOf { rows, side }
    }

    /// The card.
    #[must_use]
    pub fn card(&self) -> Card {
        self.rows.card()
    }

    /// The kind.
    #[must_use]
    pub fn kind(&self) -> Kind {
        Kind::new(S::TABLE, self.card())
    }

    /// How many rows there are.
    #[must_use]
    pub fn count(&self) -> S::Count {
        S::Count::from(self.rows.count() as u32)
    }

    /// Whether there are none.
    #[must_use]
    pub fn is_empty(&self) -> bool {
        self.rows.count() == 0
    }

    /// A row by its number, counted from 1.
    #[must_use]
    pub fn row(&self, number: u32) -> Option<Row> {
        self.rows().nth(number.checked_sub(1)? as usize)
    }

    /// The rows from the top.
    #[must_use]
    pub fn rows(&self) -> impl DoubleEndedIterator<Item = Row> + ExactSizeIterator + Clone + '_ {
        rows_of(self.numbers(), self.card())
    }

    /// All numbers, row by row, as [`raw`](crate::raw) calls are lent them.
    #[must_use]
    pub fn numbers(&self) -> &[i32] {
        self.rows.numbers()
    }

    /// The same, given away.
    #[must_use]
    pub fn into_numbers(self) -> Vec<i32> {
        self.rows.into_numbers()
    }
}

/// What it is and how long, not its numbers.
impl<S: Side> fmt::Debug for TableOf<S> {
    fn fmt(&self, to: &mut fmt::Formatter) -> fmt::Result {
        to.debug_struct("TableOf")
            .field("kind", &self.kind())
            .field("rows", &self.rows.count())
            .finish()
    }
}

/// The rows that these numbers are on this card.
pub(crate) fn rows_of(
    numbers: &[i32],
    card: Card,
) -> impl DoubleEndedIterator<Item = Row> + ExactSizeIterator + Clone + '_ {
    numbers.chunks_exact(card.width()).map(Row::of)
}

/// One pattern: its number, its sales score, its leading shade in hundredths.
///
/// ```
/// use furzeladle::{Card, Refusal, TrimTable};
/// let trim = TrimTable::from_numbers([201, 70, 3, 4, 202, 0, 3, 4], Card::Old)?;
/// let row = trim.row(1).unwrap();
/// assert_eq!((row.pattern, row.score, row.a, row.b, row.lightness), (201, 70, 3, 4, None));
/// assert_eq!(trim.rows().filter(|row| row.is_withdrawn()).count(), 1);
/// # Ok::<(), Refusal>(())
/// ```
#[derive(Clone, Copy, Debug, PartialEq, Eq, Hash)]
#[non_exhaustive]
pub struct Row {
    /// The pattern number, 1 to 999,999.
    pub pattern: u32,
    /// The score, 0 to 9,999. 0 means withdrawn.
    pub score: u32,
    /// a\*, -12,800 to 12,700.
    pub a: i32,
    /// b\*, -12,800 to 12,700.
    pub b: i32,
    /// L\*, 0 to 10,000, on the new card.
    pub lightness: Option<i32>,
}

impl Row {
    /// Whether the pattern is out of the collection: no pair with it qualifies.
    #[must_use]
    pub fn is_withdrawn(self) -> bool {
        self.score == 0
    }

    fn of(numbers: &[i32]) -> Row {
        Row {
            pattern: numbers[0] as u32,
            score: numbers[1] as u32,
            a: numbers[2],
            b: numbers[3],
            lightness: numbers.get(4).copied(),
        }
    }
}

/// A table of which a file said which of the two it is.
///
/// ```
/// use furzeladle::{AnyTable, Refusal};
/// let table = AnyTable::from_file(b"     1     2\n   201    70      3      4\n")?;
/// assert_eq!((table.kind().to_string(), table.count()), ("trim on the old card".to_string(), 1));
/// assert!(matches!(table, AnyTable::Trim(_)));
/// # Ok::<(), Refusal>(())
/// ```
#[derive(Clone, Debug, PartialEq, Eq)]
pub enum AnyTable {
    /// Kinds 1 and 3.
    Field(FieldTable),
    /// Kinds 2 and 4.
    Trim(TrimTable),
}

impl AnyTable {
    /// Reads a strict file as the kind that its header names ([`Kind::named_by`]). One that names none is read as a
    /// field file of the old card, which refuses it by 8, 9 or 10.
    pub fn from_file(bytes: &[u8]) -> Result<AnyTable, Refusal> {
        match Kind::named_by(bytes).map(|kind| kind.table) {
            Some(Table::Trim) => TrimTable::from_file(bytes).map(AnyTable::Trim),
            _ => FieldTable::from_file(bytes).map(AnyTable::Field),
        }
    }

    /// The kind.
    #[must_use]
    pub fn kind(&self) -> Kind {
        match self {
            AnyTable::Field(table) => table.kind(),
            AnyTable::Trim(table) => table.kind(),
        }
    }

    /// How many rows there are.
    #[must_use]
    pub fn count(&self) -> u32 {
        match self {
            AnyTable::Field(table) => table.count().0,
            AnyTable::Trim(table) => table.count().0,
        }
    }
}
