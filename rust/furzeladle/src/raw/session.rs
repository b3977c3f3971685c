//! The join session over a flat record.
use super::Refusal;
use crate::sys::{self, RECORD_SIZE};
use crate::{Asked, Card, Pair, Progress, Table, Taken};

/// A join session: its record, laid out flat. It is lent its tables from call to call, always the same two.
#[derive(Clone, Debug, PartialEq, Eq)]
pub struct Session {
    record: [u32; RECORD_SIZE],
}

/// The numbers that were added behind a record's pair places, as a session has them that was stored before: weights 1
/// and 1, the old card, no tolerances.
const UNSAID: [u32; RECORD_SIZE - sys::AT_FIELD_WEIGHT] = [1, 1, Card::Old as u32, 0, 0, 0];

impl Session {
    /// Opens a session over two tables. Refused by 1, 2, 3, 12, 16, 4 or 15.
    pub fn open(asked: impl Into<Asked>, field: &[i32], trim: &[i32]) -> Result<Session, Refusal> {
        let mut session = Session::from_record([0; RECORD_SIZE]);
        session.reopen(asked, field, trim)?;
        Ok(session)
    }

    /// Opens it anew, over these tables. Refused by 1, 2, 3, 12, 16, 4 or 15: the session is as it was.
    pub fn reopen(
        &mut self,
        asked: impl Into<Asked>,
        field: &[i32],
        trim: &[i32],
    ) -> Result<(), Refusal> {
        let numbers = asked.into().numbers();
        // SAFETY: references to so many numbers each; the record is written, and nothing overlaps what is borrowed for
        // that.
        let answer = unsafe {
            sys::furzeladle_open(
                numbers.as_ptr(),
                numbers.len(),
                field.as_ptr(),
                field.len(),
                trim.as_ptr(),
                trim.len(),
                self.record.as_mut_ptr(),
                self.record.len(),
            )
        };
        match answer {
            0 => Ok(()),
            _ => Err(Refusal::of(answer)),
        }
    }

    /// A session taken up again. Any numbers will do: reads and takes refuse a record that cannot be one by 5.
    #[must_use]
    pub fn from_record(record: [u32; RECORD_SIZE]) -> Session {
        Session { record }
    }

    /// The same of numbers that may have been stored before a record had as many: those that were added since are what
    /// they stand for in such a session, weights 1 and 1, the old card, no tolerances. Refused by 11 where even the
    /// pair places are cut; numbers behind a record are left.
    pub fn from_numbers(numbers: &[u32]) -> Result<Session, Refusal> {
        if numbers.len() < sys::AT_FIELD_WEIGHT {
            return Err(Refusal { number: 11, row: 0 });
        }
        let mut record = [0; RECORD_SIZE];
        record[sys::AT_FIELD_WEIGHT..].copy_from_slice(&UNSAID);
        let stored = numbers.len().min(RECORD_SIZE);
        record[..stored].copy_from_slice(&numbers[..stored]);
        Ok(Session { record })
    }

    /// The record, in the order of include/furzeladle.h.
    #[must_use]
    pub fn record(&self) -> &[u32; RECORD_SIZE] {
        &self.record
    }

    /// The card of its tables. None where the record cannot be a session's.
    #[must_use]
    pub fn card(&self) -> Option<Card> {
        Card::named(self.record[sys::AT_CARD])
    }

    /// Field rows and trim rows read.
    #[must_use]
    pub fn depths(&self) -> (u32, u32) {
        (
            self.record[sys::AT_FIELD_DEPTH],
            self.record[sys::AT_TRIM_DEPTH],
        )
    }

    /// Block pairs joined.
    #[must_use]
    pub fn joined(&self) -> u64 {
        let [low, high] =
            [sys::AT_JOINED, sys::AT_JOINED_HIGH].map(|at| u64::from(self.record[at]));
        low + (high << 32)
    }

    /// Reads one block. Refused by 5, 4, 6 or 7: the session is as it was.
    pub fn read(&mut self, field: &[i32], trim: &[i32]) -> Result<Progress, Refusal> {
        // SAFETY: references to so many numbers each; the record is written, and nothing overlaps what is borrowed for
        // that.
        let answer = unsafe {
            sys::furzeladle_read(
                field.as_ptr(),
                field.len(),
                trim.as_ptr(),
                trim.len(),
                self.record.as_mut_ptr(),
                self.record.len(),
            )
        };
        match answer {
            0 => Ok(Progress::Read),
            1 => Ok(Progress::Settled),
            _ => Err(Refusal::of(answer)),
        }
    }

    /// Takes the next pair. Refused by 5, 4, 6 or 7: the session is as it was.
    pub fn take(&mut self, field: &[i32], trim: &[i32]) -> Result<Taken, Refusal> {
        let mut pair = [0; sys::PAIR_SIZE];
        // SAFETY: references to so many numbers each; record and pair are written, and nothing overlaps what is
        // borrowed for that.
        let answer = unsafe {
            sys::furzeladle_take(
                field.as_ptr(),
                field.len(),
                trim.as_ptr(),
                trim.len(),
                self.record.as_mut_ptr(),
                self.record.len(),
                pair.as_mut_ptr(),
                pair.len(),
            )
        };
        let [sum, field, trim] = pair;
        match answer {
            2 => Ok(Taken::Given(Pair { sum, field, trim })),
            3 => Ok(Taken::NotYet),
            4 => Ok(Taken::Finished),
            _ => Err(Refusal::of(answer)),
        }
    }

    /// The rows last read, as a part of the table that they came from, and the number of the first. None where nothing
    /// was read, or record and tables do not fit each other.
    #[must_use]
    pub fn show<'a>(&self, field: &'a [i32], trim: &'a [i32]) -> Option<(Table, u32, &'a [i32])> {
        let mut place = [0; sys::PLACE_SIZE];
        // SAFETY: references to so many numbers each; the place is written, and nothing overlaps what is borrowed for
        // that.
        unsafe {
            sys::furzeladle_show(
                field.as_ptr(),
                field.len(),
                trim.as_ptr(),
                trim.len(),
                self.record.as_ptr(),
                self.record.len(),
                place.as_mut_ptr(),
                place.len(),
            )
        };
        let [table, first, count] = place;
        let (table, rows) = match table {
            1 => (Table::Field, field),
            2 => (Table::Trim, trim),
            _ => return None,
        };
        let wide = self.card()?.width();
        let shown = rows.get(wide * (first as usize - 1)..)?;
        Some((table, first, shown.get(..wide * count as usize)?))
    }
}
