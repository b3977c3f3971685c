//! The reading rule and threshold of Qi, Bouros and Mamoulis, Top-k Spatial Distance Joins (2020), as printed (lines 3 to 5,
//! 7, 12 and 13 of its algorithms 1 and 3).
//!
//! "While more exist in R and S" is taken as "in R or S", and a table that is read out is not chosen again: ending with
//! the first one would lose pairs.
use crate::held::Held;
use crate::outcome::Outcome;
use crate::rows::{count, score};
use furzeladle::Query;

const INFINITE: i32 = i32::MAX / 2;

/// A reading by that rule, R being the field table and S the trim table.
pub struct Reading<'a, const W: usize> {
    pub tables: [&'a [i32]; 2],
    pub depths: [u32; 2],
    rows: [u32; 2],
}

impl<'a, const W: usize> Reading<'a, W> {
    pub fn new(field: &'a [i32], trim: &'a [i32]) -> Self {
        Reading {
            tables: [field, trim],
            depths: [0; 2],
            rows: [count::<W>(field), count::<W>(trim)],
        }
    }

    pub fn more_exist(&self) -> bool {
        self.depths != self.rows
    }

    /// The lowest seen score.
    fn lowest(&self, i: usize) -> i32 {
        match self.depths[i] {
            0 => INFINITE,
            depth => score::<W>(self.tables[i], depth - 1) as i32,
        }
    }

    fn read_out(&self, i: usize) -> bool {
        self.depths[i] == self.rows[i]
    }

    /// S if its lowest seen score is higher, otherwise R.
    pub fn next_table(&self) -> usize {
        let by_rule = usize::from(self.lowest(1) > self.lowest(0));
        if self.read_out(by_rule) {
            1 - by_rule
        } else {
            by_rule
        }
    }

    /// Reads so many rows of a table, or those that remain: from which to before which.
    pub fn advance(&mut self, i: usize, rows: u32) -> (u32, u32) {
        let from = self.depths[i];
        self.depths[i] = (from + rows).min(self.rows[i]);
        (from, self.depths[i])
    }

    /// Whether the threshold is down to the bound.
    pub fn secured(&self, held: &Held) -> bool {
        let highest = |i: usize| score::<W>(self.tables[i], 0) as i32;
        let threshold = (highest(0) + self.lowest(1)).max(self.lowest(0) + highest(1));
        threshold <= held.bound()
    }

    pub fn outcome(&self, held: &Held, tests: u64, joined: u64) -> Outcome {
        Outcome {
            sums: held.sums(),
            depths: self.depths,
            tests,
            joined,
        }
    }
}

/// Reads by the rule until secured, `rows` at a time; `meet` joins what was just read and counts its tests.
pub fn read_until_secured<const W: usize>(
    reading: &mut Reading<W>,
    held: &mut Held,
    rows: u32,
    mut meet: impl FnMut(&Reading<W>, &mut Held, usize, (u32, u32)),
) {
    while reading.more_exist() {
        let new = reading.next_table();
        let read = reading.advance(new, rows);
        meet(reading, held, new, read);
        if reading.secured(held) {
            break;
        }
    }
}

/// A query with nothing held and nothing read.
pub fn start<'a, const W: usize>(
    query: Query,
    field: &'a [i32],
    trim: &'a [i32],
) -> (Reading<'a, W>, Held) {
    (Reading::new(field, trim), Held::new(query.k))
}
