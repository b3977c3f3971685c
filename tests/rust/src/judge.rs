//! What demand 3 asks of a whole session, judged by the plain double loop over both tables.
use crate::model::{wide, withdrawn};
use crate::places::{near_by_ends, near_by_places, pairs_of_places};
use furzeladle::{Asked, Pair};
use std::collections::HashSet;

/// What is wrong with a session.
#[derive(Clone, Copy, Debug, PartialEq, Eq, Hash)]
pub enum Fault {
    NoSuchRow,
    Withdrawn,
    FarApart,
    WrongSum,
    Repeated,
    BetterLeft,
    FinishedEarly,
    TooDeep,
}

/// What came out of a session, in order, whether it said finished, and its depths at the end.
#[derive(Clone, Debug, Default)]
pub struct Session {
    pub given: Vec<Pair>,
    pub finished: bool,
    pub depth: (u32, u32),
}

pub struct Tables<'a> {
    pub asked: Asked,
    pub field: &'a [i32],
    pub trim: &'a [i32],
}

/// So many pairs of places are tried for two tables, and not more.
const MOST_PLACES: u64 = 20_000;

impl<'t> Tables<'t> {
    /// How many numbers a row has: both tables are on one card.
    pub fn wide(&self) -> usize {
        wide(self.asked.field_card)
    }

    fn rows<'a>(&self, t: &'a [i32]) -> impl Iterator<Item = &'a [i32]> {
        t.chunks(self.wide())
    }

    /// The field row and the trim row of a pair that the tables have.
    pub fn rows_of(&self, pair: &Pair) -> (&'t [i32], &'t [i32]) {
        let row = |t: &'t [i32], i: u32| t.chunks(self.wide()).nth(i as usize - 1).unwrap();
        (row(self.field, pair.field), row(self.trim, pair.trim))
    }

    /// Nothing can qualify where rows of one shade do not.
    pub fn meets_nothing(&self) -> bool {
        let alike = &[0; 5][..self.wide()];
        !near_by_ends(&self.asked, alike, alike)
    }

    /// Whether the places of all shades are few enough to try each with each. They say then of every two rows, and of
    /// rows of one shade, what is judged here by the ends of them.
    pub fn judged_by_places(&self) -> bool {
        let (m, n) = self.counts();
        let rows = (m as u64 * n as u64).max(1);
        if rows * pairs_of_places(&self.asked) > MOST_PLACES {
            return false;
        }
        let agree = |x: &[i32], y: &[i32]| near_by_places(&self.asked, x, y) == near_by_ends(&self.asked, x, y);
        let alike = &[0; 5][..self.wide()];
        assert!(agree(alike, alike) && self.rows(self.field).all(|x| self.rows(self.trim).all(|y| agree(x, y))));
        true
    }

    /// The weighted sum of a field score and a trim score.
    fn sum(&self, field: i32, trim: i32) -> u32 {
        self.asked.field_weight.0 * field as u32 + self.asked.trim_weight.0 * trim as u32
    }

    /// The live ones of the first n rows, with their places.
    fn live<'a>(&self, t: &'a [i32], n: usize) -> impl Iterator<Item = (usize, &'a [i32])> {
        self.rows(t).take(n).enumerate().filter(|(_, row)| !withdrawn(row))
    }

    /// All qualifying pairs of the first p field rows and q trim rows, highest sum first.
    pub fn pairs(&self, p: usize, q: usize) -> Vec<Pair> {
        let mut all = Vec::new();
        for (i, x) in self.live(self.field, p) {
            for (j, y) in self.live(self.trim, q) {
                if near_by_ends(&self.asked, x, y) {
                    let sum = self.sum(x[1], y[1]);
                    all.push(Pair { sum, field: i as u32 + 1, trim: j as u32 + 1 });
                }
            }
        }
        all.sort_by_key(|p| std::cmp::Reverse(p.sum));
        all
    }

    pub fn counts(&self) -> (usize, usize) {
        (self.field.len() / self.wide(), self.trim.len() / self.wide())
    }

    /// Whether n rows show where a table ends: the last one, or a withdrawn one, is among them.
    fn ends_within(&self, t: &[i32], n: usize) -> bool {
        n == t.len() / self.wide() || self.rows(t).take(n).any(withdrawn)
    }

    /// Whether n rows show that a table has no live ones: it has none at all, or the first is among them and withdrawn.
    fn is_empty_by(&self, t: &[i32], n: usize) -> bool {
        t.is_empty() || self.rows(t).take(n.min(1)).any(withdrawn)
    }

    /// Whether reading (p, q) is sure of k, by the closed form.
    pub fn sure(&self, p: usize, q: usize) -> bool {
        self.sure_among(|| self.pairs(p, q), p, q)
    }

    /// The same by the qualifying pairs of this reading or of a longer one, which are asked for only where they decide.
    fn sure_among<P: AsRef<[Pair]>>(&self, pairs: impl FnOnce() -> P, p: usize, q: usize) -> bool {
        let (field_ends, trim_ends) = (self.ends_within(self.field, p), self.ends_within(self.trim, q));
        let is_empty = self.is_empty_by(self.field, p) || self.is_empty_by(self.trim, q);
        if self.meets_nothing() || is_empty || (field_ends && trim_ends) {
            return true;
        }
        if p == 0 || q == 0 {
            return false;
        }
        let wide = self.wide();
        let unread = |i: usize, j: usize| self.sum(self.field[wide * i + 1], self.trim[wide * j + 1]);
        let trim_part = if trim_ends { 0 } else { unread(0, q - 1) };
        let field_part = if field_ends { 0 } else { unread(p - 1, 0) };
        let ceiling = trim_part.max(field_part);
        let secured = |pair: &&Pair| pair.field as usize <= p && pair.trim as usize <= q && pair.sum >= ceiling;
        pairs().as_ref().iter().filter(secured).count() >= self.asked.query.k as usize
    }

    /// The least max(p, q) of a sure reading: more rows keep a reading sure.
    pub fn least_sure(&self) -> usize {
        let (m, n) = self.counts();
        let all = self.pairs(m, n);
        (0..).find(|&d| self.sure_among(|| &all, d.min(m), d.min(n))).unwrap()
    }

    /// The row limit against a sure reading of that max(p, q).
    pub fn limit(&self, sure: usize) -> u32 {
        sure as u32 + self.asked.query.block - 1
    }

    /// The first fault of a session, if it has one.
    pub fn judge(&self, session: &Session, limit: u32) -> Option<Fault> {
        let (m, n) = self.counts();
        let all = self.pairs(m, n);
        let mut out = HashSet::new();
        for pair in &session.given {
            let (i, j) = (pair.field as usize, pair.trim as usize);
            if !(1..=m).contains(&i) || !(1..=n).contains(&j) {
                return Some(Fault::NoSuchRow);
            }
            let (x, y) = self.rows_of(pair);
            if withdrawn(x) || withdrawn(y) {
                return Some(Fault::Withdrawn);
            }
            if !near_by_ends(&self.asked, x, y) {
                return Some(Fault::FarApart);
            }
            if pair.sum != self.sum(x[1], y[1]) {
                return Some(Fault::WrongSum);
            }
            if !out.insert((i, j)) {
                return Some(Fault::Repeated);
            }
            let left = all.iter().find(|p| !out.contains(&(p.field as usize, p.trim as usize)));
            if left.is_some_and(|p| p.sum > pair.sum) {
                return Some(Fault::BetterLeft);
            }
        }
        if session.finished && out.len() < all.len().min(self.asked.query.k as usize) {
            return Some(Fault::FinishedEarly);
        }
        if session.depth.0 > limit || session.depth.1 > limit {
            return Some(Fault::TooDeep);
        }
        None
    }
}
