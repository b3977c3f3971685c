//! The join session over two checked tables.
use crate::sys::{self, RECORD_SIZE};
use crate::table::{rows_of, Row};
use crate::{
    raw, Asked, Card, FieldRows, FieldTable, List, Listed, Refusal, Table, TrimRows, TrimTable,
};
use std::iter::FusedIterator;

/// A field row and a trim row, numbered from 1, and their sum: each row's score times its table's weight, added.
#[derive(Clone, Copy, Debug, PartialEq, Eq, Hash)]
pub struct Pair {
    /// The two weighted scores added.
    pub sum: u32,
    /// The field row.
    pub field: u32,
    /// The trim row.
    pub trim: u32,
}

/// What a read did.
#[derive(Clone, Copy, Debug, PartialEq, Eq, Hash)]
pub enum Progress {
    /// A block was read.
    Read,
    /// Nothing unread can matter, and nothing was read.
    Settled,
}

/// What a take answers.
#[derive(Clone, Copy, Debug, PartialEq, Eq, Hash)]
pub enum Taken {
    /// The next pair of the list.
    Given(Pair),
    /// No held pair is secured yet: read on.
    NotYet,
    /// The list is complete.
    Finished,
}

/// A join session over the two tables that it borrows: the same two in every call.
///
/// Opening may be refused. After it nothing is: both tables were checked whole, and over such tables the library is
/// proved to refuse no call (`gets-there` in crates/demand/specs/Ends.antt), nor one with a record that is taken up
/// ([`Session::from_record`]), whoever made it (`read-passes`, `take-passes` in crates/tables_join/specs/Stays.antt).
///
/// ```
/// use furzeladle::{Card, FieldTable, Pair, Progress, Query, Refusal, Session, Taken, TrimTable};
/// let field = FieldTable::from_numbers([101, 90, 0, 0, 102, 80, 100, 0], Card::Old)?;
/// let trim = TrimTable::from_numbers([201, 70, 400, 0, 202, 50, 3, 4], Card::Old)?;
/// let mut session = Session::open(Query::new(1).block(1).radius(5), &field, &trim)?;
/// assert_eq!(session.take(), Taken::NotYet);
/// while session.read() == Progress::Read {}
/// assert_eq!(session.take(), Taken::Given(Pair { sum: 140, field: 1, trim: 2 }));
/// assert_eq!(session.take(), Taken::Finished);
/// # Ok::<(), Refusal>(())
/// ```
#[derive(Clone, Debug)]
#[must_use]
pub struct Session<'a> {
    calls: raw::Session,
    field: &'a FieldTable,
    trim: &'a TrimTable,
}

/// What is never refused over checked tables.
fn unrefused<T>(answer: Result<T, raw::Refusal>) -> T {
    answer.unwrap_or_else(|refusal| unreachable!("over two checked tables: {refusal}"))
}

impl<'a> Session<'a> {
    /// Opens a session of a query, on the tables' card whatever the query says of cards. Refused by 1, 2, 3, 12, 16 or
    /// 15.
    pub fn open(
        asked: impl Into<Asked>,
        field: &'a FieldTable,
        trim: &'a TrimTable,
    ) -> Result<Session<'a>, Refusal> {
        let asked = asked.into().cards(field.card(), trim.card());
        let calls = raw::Session::open(asked, field.numbers(), trim.numbers())?;
        Ok(Session { calls, field, trim })
    }

    /// Takes a session up again over its two tables. Refused by 5 where no session can have the record, by 15 and 4
    /// where its tables were on another card or had other row counts (tables of as many rows are not told from its
    /// own), and by 11 where numbers are missing. Of a record that was stored before records had so many, none are:
    /// what was added since is as it was then, weights 1 and 1, the old card, no tolerances.
    ///
    /// ```
    /// # use furzeladle::{Card, FieldTable, Query, Refusal, Session, TrimTable, RECORD_SIZE};
    /// # let field = FieldTable::from_numbers([101, 90, 0, 0, 102, 80, 100, 0], Card::Old)?;
    /// # let trim = TrimTable::from_numbers([201, 70, 400, 0, 202, 50, 3, 4], Card::Old)?;
    /// let mut session = Session::open(Query::new(2).block(1).radius(5), &field, &trim)?;
    /// session.read();
    /// let stored: Vec<u32> = session.into_record().to_vec();
    ///
    /// let session = Session::from_record(&stored, &field, &trim)?;
    /// assert_eq!(session.depths().0.0, 1);
    /// assert_eq!(session.into_list().pairs[0].pair.sum, 140);
    /// assert_eq!(Session::from_record(&[7; RECORD_SIZE], &field, &trim).unwrap_err(), Refusal::Record);
    /// # Ok::<(), Refusal>(())
    /// ```
    pub fn from_record(
        record: &[u32],
        field: &'a FieldTable,
        trim: &'a TrimTable,
    ) -> Result<Session<'a>, Refusal> {
        let calls = raw::Session::from_numbers(record)?;
        let is_other = |card| card != field.card() || card != trim.card();
        if calls.card().is_some_and(is_other) {
            return Err(Refusal::Cards);
        }
        // once a take of it is not refused over checked tables, no later call is
        calls.clone().take(field.numbers(), trim.numbers())?;
        Ok(Session { calls, field, trim })
    }

    /// Reads one block.
    pub fn read(&mut self) -> Progress {
        unrefused(self.calls.read(self.field.numbers(), self.trim.numbers()))
    }

    /// Reads until nothing unread can matter.
    pub fn settle(&mut self) {
        while self.read() == Progress::Read {}
    }

    /// Takes the next pair, if one is secured. It is out of the session then, and comes from nowhere else.
    #[must_use]
    pub fn take(&mut self) -> Taken {
        unrefused(self.calls.take(self.field.numbers(), self.trim.numbers()))
    }

    /// The rows last read. None where nothing was.
    ///
    /// ```
    /// # use furzeladle::{Card, FieldTable, Query, Refusal, Session, Table, TrimTable};
    /// # let field = FieldTable::from_numbers([101, 90, 0, 0, 102, 80, 100, 0], Card::Old)?;
    /// # let trim = TrimTable::from_numbers([201, 70, 400, 0, 202, 50, 3, 4], Card::Old)?;
    /// let mut session = Session::open(Query::new(2).block(1), &field, &trim)?;
    /// assert!(session.show().is_none());
    /// session.read();
    /// let shown = session.show().unwrap();
    /// assert_eq!((shown.table, shown.first), (Table::Field, 1));
    /// assert_eq!(shown.rows().next().unwrap().pattern, 101);
    /// # Ok::<(), Refusal>(())
    /// ```
    #[must_use]
    pub fn show(&self) -> Option<Shown<'a>> {
        let (field, trim) = (self.field.numbers(), self.trim.numbers());
        let (table, first, numbers) = self.calls.show(field, trim)?;
        let card = self.card();
        Some(Shown {
            table,
            first,
            numbers,
            card,
        })
    }

    /// The pairs that are still to come, best first, each as soon as it is secured: rows are read as far as the next
    /// one needs, and no further.
    ///
    /// Among pairs of equal sums a later one may rank ahead of one that has come out before it was read; who wants them
    /// in rank, as [`list`](crate::list) has them, calls [`settle`](Session::settle) first.
    ///
    /// ```
    /// # use furzeladle::{Card, FieldRows, FieldTable, Query, Refusal, Session, TrimRows, TrimTable};
    /// # let field: Vec<i32> = (0..100).flat_map(|i| [101 + i, 900 - i, 0, 0]).collect();
    /// # let trim: Vec<i32> = (0..100).flat_map(|i| [201 + i, 900 - i, 3, 4]).collect();
    /// # let field = FieldTable::from_numbers(field, Card::Old)?;
    /// # let trim = TrimTable::from_numbers(trim, Card::Old)?;
    /// let mut session = Session::open(Query::new(64).block(1).radius(5), &field, &trim)?;
    /// let best = session.pairs().next().unwrap();
    /// assert_eq!((best.pair.sum, best.field_number, best.trim_number), (1_800, 101, 201));
    /// assert_eq!(session.depths(), (FieldRows(1), TrimRows(1))); // of 100 each
    /// assert_eq!(session.pairs().take(2).count(), 2);
    /// assert_eq!(session.depths(), (FieldRows(2), TrimRows(2)));
    /// # Ok::<(), Refusal>(())
    /// ```
    pub fn pairs(&mut self) -> Pairs<'_, 'a> {
        Pairs { session: self }
    }

    /// The list of the pairs that are still to come, in rank: of a session that was just opened, all that
    /// [`list`](crate::list) gives.
    #[must_use]
    pub fn into_list(mut self) -> List {
        self.settle();
        List {
            pairs: self.pairs().collect(),
            depths: self.depths(),
            joined: self.joined(),
        }
    }

    /// The field table.
    #[must_use]
    pub fn field(&self) -> &'a FieldTable {
        self.field
    }

    /// The trim table.
    #[must_use]
    pub fn trim(&self) -> &'a TrimTable {
        self.trim
    }

    /// The card of both tables.
    #[must_use]
    pub fn card(&self) -> Card {
        self.field.card()
    }

    /// Field rows and trim rows read.
    #[must_use]
    pub fn depths(&self) -> (FieldRows, TrimRows) {
        let (field, trim) = self.calls.depths();
        (FieldRows(field), TrimRows(trim))
    }

    /// Block pairs joined.
    #[must_use]
    pub fn joined(&self) -> u64 {
        self.calls.joined()
    }

    /// How many pairs came out.
    #[must_use]
    pub fn out(&self) -> u32 {
        self.record()[sys::AT_OUT]
    }

    /// The record, in the order of include/furzeladle.h.
    #[must_use]
    pub fn record(&self) -> &[u32; RECORD_SIZE] {
        self.calls.record()
    }

    /// The same, to be kept and taken up later.
    #[must_use]
    pub fn into_record(self) -> [u32; RECORD_SIZE] {
        *self.calls.record()
    }

    /// The pair with what its rows say. The squared distance is worked out here and tested beside the library's, which
    /// tells it of whole queries alone.
    fn listed(&self, pair: Pair) -> Listed {
        let wide = self.card().width();
        let row = |numbers: &'a [i32], row: u32| &numbers[wide * (row as usize - 1)..][..wide];
        let x = row(self.field.numbers(), pair.field);
        let y = row(self.trim.numbers(), pair.trim);
        let squares = x[2..]
            .iter()
            .zip(&y[2..])
            .map(|(p, q)| u64::from(p.abs_diff(*q)).pow(2));
        Listed {
            pair,
            field_number: x[0] as u32,
            trim_number: y[0] as u32,
            squared_distance: squares.sum(),
        }
    }
}

/// The pairs of a session that are still to come, best first.
#[derive(Debug)]
#[must_use]
pub struct Pairs<'s, 'a> {
    session: &'s mut Session<'a>,
}

impl Iterator for Pairs<'_, '_> {
    type Item = Listed;

    fn next(&mut self) -> Option<Listed> {
        loop {
            match self.session.take() {
                Taken::Given(pair) => return Some(self.session.listed(pair)),
                Taken::NotYet if self.session.read() == Progress::Read => {}
                Taken::NotYet | Taken::Finished => return None,
            }
        }
    }

    fn size_hint(&self) -> (usize, Option<usize>) {
        let record = self.session.record();
        let left = record[sys::AT_K] - record[sys::AT_OUT];
        (0, Some(left as usize))
    }
}

impl FusedIterator for Pairs<'_, '_> {}

impl<'s, 'a> IntoIterator for &'s mut Session<'a> {
    type Item = Listed;
    type IntoIter = Pairs<'s, 'a>;

    fn into_iter(self) -> Pairs<'s, 'a> {
        self.pairs()
    }
}

/// Rows last read, as a part of the table that they came from.
#[derive(Clone, Copy, Debug, PartialEq, Eq)]
pub struct Shown<'a> {
    /// The table that they came from.
    pub table: Table,
    /// The number of the first of them.
    pub first: u32,
    numbers: &'a [i32],
    card: Card,
}

impl<'a> Shown<'a> {
    /// The rows.
    #[must_use]
    pub fn rows(&self) -> impl DoubleEndedIterator<Item = Row> + ExactSizeIterator + Clone + 'a {
        rows_of(self.numbers, self.card)
    }

    /// Their numbers.
    #[must_use]
    pub fn numbers(&self) -> &'a [i32] {
        self.numbers
    }
}
