//! The rules' blockwise join in plain Rust, as one would write it: the same answers, depths and counts.
use crate::checks::{call_fits, rows_legal};
use crate::held::Held;
use crate::outcome::Outcome;
use crate::rectangle::Rectangle;
use crate::rows::{count, live_end, near, near_faded, part, score, square, Faded};
use furzeladle::{Asked, Meaning, Pair, Query};

/// Which checks the join makes.
#[derive(Clone, Copy, PartialEq)]
pub enum Checks {
    /// Those of the rules: the record, the sizes and every row read, on every call.
    EveryCall,
    /// Each row once, when it is read; nothing else.
    EachRowOnce,
}

/// Over rows of W numbers.
pub struct Join<'a, const W: usize> {
    pub query: Query,
    /// Of the field table, then of the trim table.
    pub weights: [u32; 2],
    pub tolerances: [u32; 2],
    pub meaning: Meaning,
    faded: Option<Faded>,
    pub tables: [&'a [i32]; 2],
    /// The number of a shade's coordinates.
    pub card: u32,
    pub rows: [u32; 2],
    pub depths: [u32; 2],
    pub last: u32,
    pub out: u32,
    pub held: Held,
    pub joined: u64,
    tests: u64,
    checks: Checks,
}

impl<'a, const W: usize> Join<'a, W> {
    pub fn open(asked: Asked, field: &'a [i32], trim: &'a [i32], checks: Checks) -> Self {
        Join {
            query: asked.query,
            weights: [asked.field_weight.0, asked.trim_weight.0],
            tolerances: [asked.field_tolerance.0, asked.trim_tolerance.0],
            meaning: asked.meaning,
            faded: Faded::of(asked),
            tables: [field, trim],
            card: W as u32 - 2,
            rows: [count::<W>(field), count::<W>(trim)],
            depths: [0; 2],
            last: 0,
            out: 0,
            held: Held::new(asked.query.k),
            joined: 0,
            tests: 0,
            checks,
        }
    }

    fn refused(&self) -> bool {
        self.checks == Checks::EveryCall && !call_fits(self)
    }

    /// What a row adds to a sum.
    fn worth(&self, i: usize, row: u32) -> u32 {
        self.weights[i] * score::<W>(self.tables[i], row)
    }

    /// All rows are read, or a withdrawn one is, which the last row read then is too.
    fn read_out(&self, i: usize) -> bool {
        let depth = self.depths[i];
        depth == self.rows[i] || (depth > 0 && score::<W>(self.tables[i], depth - 1) == 0)
    }

    /// A table has no rows, or its first row is read and withdrawn.
    fn a_table_is_empty(&self) -> bool {
        let empty = |i: usize| {
            self.rows[i] == 0 || (self.depths[i] > 0 && score::<W>(self.tables[i], 0) == 0)
        };
        empty(0) || empty(1)
    }

    /// Both tolerances added.
    fn tolerance(&self) -> u32 {
        self.tolerances[0] + self.tolerances[1]
    }

    /// A surely query that not even equal shades meet.
    pub fn nothing_qualifies(&self) -> bool {
        let (t, r) = (self.tolerance(), self.query.radius);
        self.meaning == Meaning::Surely && self.card * t * t > r * r
    }

    fn secured(&self, sum: u32) -> bool {
        let part = |i: usize| {
            if self.read_out(i) {
                return 0;
            }
            self.worth(1 - i, 0) + self.worth(i, self.depths[i] - 1)
        };
        if self.depths.contains(&0) {
            return self.a_table_is_empty();
        }
        (self.read_out(0) && self.read_out(1)) || sum >= part(0).max(part(1))
    }

    fn settled(&self) -> bool {
        let lowest = self.held.pairs().last();
        self.nothing_qualifies()
            || self.a_table_is_empty()
            || (self.read_out(0) && self.read_out(1))
            || self.out == self.query.k
            || (self.held.is_full() && lowest.is_some_and(|p| self.secured(p.sum)))
    }

    fn next_table(&self) -> usize {
        if self.depths[0] == 0 || (self.depths[1] > 0 && self.read_out(1)) {
            return 0;
        }
        if self.depths[1] == 0 || self.read_out(0) {
            return 1;
        }
        let drop = |i: usize| self.worth(i, 0) - self.worth(i, self.depths[i] - 1);
        usize::from((drop(1), self.depths[1]) < (drop(0), self.depths[0]))
    }

    /// Joins live field rows and trim rows, each from one number to before another, where this test passes.
    #[inline]
    fn join_by(
        &mut self,
        [f, f_end]: [u32; 2],
        [t, t_end]: [u32; 2],
        near: impl Fn(&[i32], &[i32]) -> bool,
    ) {
        let [v, w] = self.weights.map(|weight| weight as i32);
        let x = part::<W>(self.tables[0], f, f_end);
        let y = part::<W>(self.tables[1], t, t_end);
        for (i, r) in x.chunks_exact(W).enumerate() {
            for (j, s) in y.chunks_exact(W).enumerate() {
                if near(r, s) {
                    let sum = (v * r[1] + w * s[1]) as u32;
                    let (field, trim) = (f + i as u32 + 1, t + j as u32 + 1);
                    self.held.put(Pair { sum, field, trim });
                }
            }
        }
        self.joined += 1;
        self.tests += u64::from(f_end - f) * u64::from(t_end - t);
    }

    /// Joins them by the query's test, chosen once.
    fn join(&mut self, f: [u32; 2], t: [u32; 2]) {
        let square = square(self.query);
        match self.faded {
            None => self.join_by(f, t, |r, s| near::<W>(r, s, square)),
            Some(faded) => self.join_by(f, t, |r, s| near_faded::<W>(r, s, square, faded)),
        }
    }

    /// Meets the blocks already read of the other table with rows of a new block. Where the live rows end is found once
    /// for each table; a block pair without any is joined all the same, unless it is low or far.
    fn meet(&mut self, new: usize, from: u32, to: u32) {
        let old = 1 - new;
        let new_end = live_end::<W>(self.tables[new], from, to);
        let old_end = live_end::<W>(self.tables[old], 0, self.depths[old]);
        let sides = Rectangle::of::<W>(part::<W>(self.tables[new], from, to));
        let (square, tolerance) = (square(self.query), self.tolerance() as i32);
        let mut start = 0;
        while start < self.depths[old] {
            let end = (start + self.query.block).min(self.depths[old]);
            let first = self.worth(new, from) + self.worth(old, start);
            let block = part::<W>(self.tables[old], start, end);
            if first as i32 >= self.held.bound() && !sides.is_far::<W>(block, square, tolerance) {
                let (here, there) = ([from, new_end], [start, end.min(old_end).max(start)]);
                let (f, t) = if new == 0 {
                    (here, there)
                } else {
                    (there, here)
                };
                self.join(f, t);
            }
            start = end;
        }
    }

    /// Whether a block was read; none where the call is refused.
    pub fn read(&mut self) -> Option<bool> {
        if self.refused() {
            return None;
        }
        if self.settled() {
            return Some(false);
        }
        let new = self.next_table();
        let from = self.depths[new];
        let to = (from + self.query.block).min(self.rows[new]);
        if !rows_legal::<W>(self.tables[new], from, to) {
            return None;
        }
        self.meet(new, from, to);
        self.depths[new] = to;
        self.last = new as u32 + 1;
        Some(true)
    }

    /// The first held pair if it is secured; none where there is none, or the call is refused.
    fn take(&mut self) -> Option<Pair> {
        if self.refused() || !self.secured(self.held.pairs().first()?.sum) {
            return None;
        }
        self.out += 1;
        Some(self.held.take())
    }
}

fn run<const W: usize>(asked: Asked, field: &[i32], trim: &[i32], checks: Checks) -> Outcome {
    let mut join = Join::<W>::open(asked, field, trim, checks);
    while join.read() == Some(true) {}
    let mut sums = Vec::new();
    while let Some(pair) = join.take() {
        sums.push(pair.sum);
    }
    Outcome {
        sums,
        depths: join.depths,
        tests: join.tests,
        joined: join.joined,
    }
}

pub fn same_checks<const W: usize>(asked: Asked, field: &[i32], trim: &[i32]) -> Outcome {
    run::<W>(asked, field, trim, Checks::EveryCall)
}

pub fn rows_checked_once<const W: usize>(asked: Asked, field: &[i32], trim: &[i32]) -> Outcome {
    run::<W>(asked, field, trim, Checks::EachRowOnce)
}
