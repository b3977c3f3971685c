//! The rules' session, step by step, from their words alone: plain Rust that shares nothing with the library.
use furzeladle::{Asked, Card, Meaning, Pair, Query};

pub const PLACES: usize = 64;
/// How many numbers a flat record is.
pub const NUMBERS: usize = 210;

/// The record, with the numbers as they come in: any.
#[derive(Clone, Debug, PartialEq, Eq)]
pub struct Record {
    pub query: Query,
    /// Of the field table, then of the trim table.
    pub weight: [u32; 2],
    pub rows: [u32; 2],
    pub depth: [u32; 2],
    pub last: u32,
    pub out: u32,
    pub held: u32,
    pub places: [Pair; PLACES],
    pub joined: u64,
    /// By the number of its coordinates.
    pub card: u32,
    /// Of the field table, then of the trim table.
    pub tolerance: [u32; 2],
    /// 0 possibly, any other number surely.
    pub meaning: u32,
}

const ZERO: Pair = Pair { sum: 0, field: 0, trim: 0 };

/// What a call answers.
#[derive(Clone, Copy, Debug, PartialEq, Eq)]
pub enum Said {
    Refused(u32),
    Opened,
    Read,
    Settled,
    Given(Pair),
    NotYet,
    Finished,
}

impl Record {
    pub fn of(l: &[u32]) -> Record {
        let mut places = [ZERO; PLACES];
        for (i, place) in places.iter_mut().enumerate() {
            *place = Pair { sum: l[12 + 3 * i], field: l[13 + 3 * i], trim: l[14 + 3 * i] };
        }
        Record {
            query: Query { k: l[0], block: l[1], radius: l[2] },
            weight: [l[204], l[205]],
            rows: [l[3], l[4]],
            depth: [l[5], l[6]],
            last: l[7],
            out: l[8],
            held: l[9],
            places,
            joined: u64::from(l[10]) + (u64::from(l[11]) << 32),
            card: l[206],
            tolerance: [l[207], l[208]],
            meaning: l[209],
        }
    }

    pub fn flat(&self) -> Vec<u32> {
        let q = self.query;
        let mut l = vec![q.k, q.block, q.radius, self.rows[0], self.rows[1], self.depth[0], self.depth[1]];
        l.extend([self.last, self.out, self.held, self.joined as u32, (self.joined >> 32) as u32]);
        for p in self.places {
            l.extend([p.sum, p.field, p.trim]);
        }
        l.extend(self.weight);
        l.push(self.card);
        l.extend(self.tolerance);
        l.push(self.meaning);
        l
    }

    fn reach(&self) -> Reach {
        Reach::of(self.query.radius, self.tolerance, self.meaning)
    }

    /// No pair of rows can qualify: it is settled as it opens.
    fn meets_nothing(&self) -> bool {
        self.reach().meets_nothing(self.card)
    }

    /// A record that changes says its meaning by 0 or 1; one that does not keeps whatever number stood there.
    fn changed(&mut self) {
        self.meaning = self.meaning.min(1);
    }

    fn pairs(&self) -> &[Pair] {
        &self.places[..self.held as usize]
    }

    fn hold(&mut self, pairs: &[Pair]) {
        self.held = pairs.len() as u32;
        self.places = [ZERO; PLACES];
        self.places[..pairs.len()].copy_from_slice(pairs);
    }

    /// All its rows are read, or a withdrawn one is: scores fall, so that the last row read tells.
    fn read_out(&self, tables: Both, table: usize) -> bool {
        let depth = self.depth[table];
        depth == self.rows[table] || (depth > 0 && withdrawn(tables[table].row(depth)))
    }

    fn both_read_out(&self, tables: Both) -> bool {
        self.read_out(tables, 0) && self.read_out(tables, 1)
    }

    /// A table without rows, or one whose first row is read and withdrawn.
    fn has_empty_table(&self, tables: Both) -> bool {
        let is_empty = |i: usize| self.rows[i] == 0 || (self.depth[i] > 0 && withdrawn(tables[i].row(1)));
        is_empty(0) || is_empty(1)
    }

    /// What row i of a table adds to a sum.
    fn worth(&self, tables: Both, table: usize, i: u32) -> u32 {
        self.weight[table] * tables[table].row(i)[1] as u32
    }
}

/// A lent slice, and how many of its numbers make a row.
#[derive(Clone, Copy)]
struct Lent<'a> {
    numbers: &'a [i32],
    wide: usize,
}

/// The field table and the trim table.
type Both<'a> = [Lent<'a>; 2];

impl<'a> Lent<'a> {
    /// Rows from + 1 to to.
    fn part(&self, from: u32, to: u32) -> &'a [i32] {
        &self.numbers[self.wide * from as usize..self.wide * to as usize]
    }

    /// Row i, numbered from 1.
    fn row(&self, i: u32) -> &'a [i32] {
        let end = self.wide * i as usize;
        &self.numbers[end - self.wide..end]
    }

    fn rows(&self) -> usize {
        self.numbers.len() / self.wide
    }

    fn size_fits(&self) -> bool {
        self.numbers.len().is_multiple_of(self.wide) && self.rows() <= 65_535
    }
}

/// How many numbers a row has on a card.
pub fn wide(card: Card) -> usize {
    match card {
        Card::Old => 4,
        Card::New => 5,
    }
}

/// What a session is opened by. Any numbers.
#[derive(Clone, Copy, Debug, PartialEq, Eq)]
pub struct Opening {
    pub query: Query,
    /// Of the field table, then of the trim table.
    pub weight: [u32; 2],
    pub kind: [u32; 2],
    pub tolerance: [u32; 2],
    /// 0 possibly, any other number surely.
    pub meaning: u32,
}

impl Opening {
    /// Of three or more numbers as a caller lends them.
    pub fn of(lent: &[u32]) -> Opening {
        let or = |place: usize, unsaid: u32| lent.get(place).copied().unwrap_or(unsaid);
        Opening {
            query: Query { k: lent[0], block: lent[1], radius: lent[2] },
            weight: [or(3, 1), or(4, 1)],
            kind: [or(5, 1), or(6, 2)],
            tolerance: [or(7, 0), or(8, 0)],
            meaning: or(9, 0),
        }
    }

    /// All ten numbers.
    pub fn numbers(&self) -> [u32; 10] {
        let (q, [v, w], [field, trim], [t, u]) = (self.query, self.weight, self.kind, self.tolerance);
        [q.k, q.block, q.radius, v, w, field, trim, t, u, self.meaning]
    }
}

impl From<Query> for Opening {
    fn from(query: Query) -> Opening {
        Opening::of(&[query.k, query.block, query.radius])
    }
}

impl From<Asked> for Opening {
    fn from(asked: Asked) -> Opening {
        let kind = |card: Card, old: u32, new: u32| if card == Card::New { new } else { old };
        Opening {
            query: asked.query,
            weight: [asked.field_weight.0, asked.trim_weight.0],
            kind: [kind(asked.field_card, 1, 3), kind(asked.trim_card, 2, 4)],
            tolerance: [asked.field_tolerance.0, asked.trim_tolerance.0],
            meaning: u32::from(asked.meaning == Meaning::Surely),
        }
    }
}

/// A score of 0: no pair with the row qualifies.
pub fn withdrawn(r: &[i32]) -> bool {
    r[1] == 0
}

/// Of two whole rows on one card: over a and b, and over L where they have it.
pub fn squared_distance(x: &[i32], y: &[i32]) -> u64 {
    assert_eq!(x.len(), y.len());
    x[2..].iter().zip(&y[2..]).map(|(p, q)| u64::from(p.abs_diff(*q)).pow(2)).sum()
}

/// How near two shades must be: the radius, both tolerances added, and whether they must be near surely.
#[derive(Clone, Copy, Debug, PartialEq, Eq)]
pub struct Reach {
    pub radius: u32,
    pub tolerance: u32,
    pub surely: bool,
}

impl Reach {
    fn of(radius: u32, tolerance: [u32; 2], meaning: u32) -> Reach {
        Reach { radius, tolerance: tolerance[0] + tolerance[1], surely: meaning != 0 }
    }

    /// Whether coordinates that lie so far apart lie within the radius.
    fn within(&self, apart: impl Iterator<Item = u32>) -> bool {
        apart.map(|x| u64::from(x).pow(2)).sum::<u64>() <= u64::from(self.radius).pow(2)
    }

    /// Of two whole rows on one card, by their shades: surely if they are at their farthest, else at their nearest.
    pub fn near(&self, x: &[i32], y: &[i32]) -> bool {
        assert_eq!(x.len(), y.len());
        let apart = x[2..].iter().zip(&y[2..]).map(|(p, q)| p.abs_diff(*q));
        if self.surely {
            self.within(apart.map(|d| d + self.tolerance))
        } else {
            self.within(apart.map(|d| d.saturating_sub(self.tolerance)))
        }
    }

    /// Whether not even equal shades of so many coordinates are near.
    pub fn meets_nothing(&self, coordinates: u32) -> bool {
        self.surely && !self.within((0..coordinates).map(|_| self.tolerance))
    }

    fn qualifies(&self, x: &[i32], y: &[i32]) -> bool {
        !withdrawn(x) && !withdrawn(y) && self.near(x, y)
    }

    /// Whether the rectangles of two blocks lie farther apart than the radius: each block's rows have a lowest and a
    /// highest of every coordinate, withdrawn rows too. Each gap is lowered by the tolerance, whatever is meant by it.
    pub fn far_apart(&self, x: &[i32], y: &[i32], wide: usize) -> bool {
        let ends = |rows: &[i32], at: usize| {
            let along = rows.chunks(wide).map(|row| row[at]);
            (along.clone().min().unwrap(), along.max().unwrap())
        };
        let gap = |at: usize| match (ends(x, at), ends(y, at)) {
            ((_, high), (bottom, _)) if high < bottom => high.abs_diff(bottom),
            ((low, _), (_, top)) if top < low => top.abs_diff(low),
            _ => 0,
        };
        !self.within((2..wide).map(|at| gap(at).saturating_sub(self.tolerance)))
    }
}

impl From<Asked> for Reach {
    fn from(asked: Asked) -> Reach {
        let opening = Opening::from(asked);
        Reach::of(opening.query.radius, opening.tolerance, opening.meaning)
    }
}

/// Higher sum, then lower field row, then lower trim row.
pub fn rank(p: &Pair) -> (std::cmp::Reverse<u32>, u32, u32) {
    (std::cmp::Reverse(p.sum), p.field, p.trim)
}

fn query_refused(q: Query, weight: [u32; 2], tolerance: [u32; 2]) -> u32 {
    if !(1..=64).contains(&q.k) {
        1
    } else if !(1..=1024).contains(&q.block) {
        2
    } else if q.radius > 40_000 {
        3
    } else if !weight.iter().all(|w| (1..=9).contains(w)) {
        12
    } else if !tolerance.iter().all(|t| (0..=500).contains(t)) {
        16
    } else {
        0
    }
}

/// 1, 2, 3, 12, 16; 10 of both kinds; 4 of both tables, each by its own kind; 15.
fn open_refused(opening: &Opening, f: &[i32], t: &[i32]) -> u32 {
    let code = query_refused(opening.query, opening.weight, opening.tolerance);
    if code != 0 {
        return code;
    }
    let [field, trim] = opening.kind;
    if !matches!(field, 1 | 3) || !matches!(trim, 2 | 4) {
        return 10;
    }
    let on = |new: bool| wide(if new { Card::New } else { Card::Old });
    let (field_wide, trim_wide) = (on(field == 3), on(trim == 4));
    let tables = [Lent { numbers: f, wide: field_wide }, Lent { numbers: t, wide: trim_wide }];
    if !tables.iter().all(Lent::size_fits) {
        return 4;
    }
    if field_wide != trim_wide {
        return 15;
    }
    0
}

fn blocks(block: u32, depth: u32) -> u64 {
    u64::from(depth.div_ceil(block))
}

/// Whether 5 does not refuse it.
pub fn record_fits(r: &Record) -> bool {
    if query_refused(r.query, r.weight, r.tolerance) != 0 {
        return false;
    }
    for table in 0..2 {
        let (rows, depth) = (r.rows[table], r.depth[table]);
        if rows > 65_535 || depth > rows || (depth % r.query.block != 0 && depth != rows) {
            return false;
        }
    }
    if u64::from(r.out) + u64::from(r.held) > u64::from(r.query.k) {
        return false;
    }
    let held = r.pairs();
    let pair_fits =
        |p: &Pair| (1..=r.depth[0]).contains(&p.field) && (1..=r.depth[1]).contains(&p.trim) && p.sum <= 179_982;
    let mark_fits = match r.last {
        0 => r.depth == [0, 0],
        1 => r.depth[0] > 0,
        2 => r.depth[1] > 0,
        _ => false,
    };
    matches!(r.card, 2 | 3)
        && (!r.meets_nothing() || r.depth == [0, 0])
        && held.iter().all(pair_fits)
        && held.windows(2).all(|w| rank(&w[0]) < rank(&w[1]))
        && mark_fits
        && r.places[held.len()..].iter().all(|p| *p == ZERO)
        && r.joined <= blocks(r.query.block, r.depth[0]) * blocks(r.query.block, r.depth[1])
}

/// 6 and 7 of rows from + 1 to to; 0 where neither refuses.
fn rows_refused(t: Lent, from: u32, to: u32) -> u32 {
    for i in from + 1..=to {
        let r = t.row(i);
        let shade = -12_800..=12_700;
        let fits = (1..=999_999).contains(&r[0])
            && (0..=9_999).contains(&r[1])
            && shade.contains(&r[2])
            && shade.contains(&r[3])
            && r.get(4).is_none_or(|lightness| (0..=10_000).contains(lightness));
        if !fits {
            return 6;
        }
        if i > 1 && r[1] > t.row(i - 1)[1] {
            return 7;
        }
    }
    0
}

/// The tables on the record's card; or 5, then 4.
fn lent<'a>(f: &'a [i32], t: &'a [i32], r: &Record) -> Result<Both<'a>, u32> {
    if !record_fits(r) {
        return Err(5);
    }
    let wide = wide(if r.card == 3 { Card::New } else { Card::Old });
    let tables = [f, t].map(|numbers| Lent { numbers, wide });
    for (t, rows) in tables.iter().zip(r.rows) {
        if !t.size_fits() || t.rows() != rows as usize {
            return Err(4);
        }
    }
    Ok(tables)
}

/// The same; or 5, 4, 6 or 7.
fn called<'a>(f: &'a [i32], t: &'a [i32], r: &Record) -> Result<Both<'a>, u32> {
    let tables = lent(f, t, r)?;
    for (t, depth) in tables.iter().zip(r.depth) {
        let code = rows_refused(*t, 0, depth);
        if code != 0 {
            return Err(code);
        }
    }
    Ok(tables)
}

/// The ceiling; none where both tables are read out.
fn ceiling(tables: Both, r: &Record) -> Option<u32> {
    let part = |table: usize| {
        (!r.read_out(tables, table)).then(|| r.worth(tables, 1 - table, 1) + r.worth(tables, table, r.depth[table]))
    };
    part(0).max(part(1))
}

fn secured(tables: Both, r: &Record, p: &Pair) -> bool {
    if r.depth.contains(&0) && !r.has_empty_table(tables) {
        return false;
    }
    ceiling(tables, r).is_none_or(|c| p.sum >= c)
}

fn settled(tables: Both, r: &Record) -> bool {
    r.meets_nothing()
        || r.has_empty_table(tables)
        || r.both_read_out(tables)
        || r.out == r.query.k
        || (r.out + r.held == r.query.k && r.pairs().iter().all(|p| secured(tables, r, p)))
}

fn next_table(tables: Both, r: &Record) -> usize {
    if r.depth[0] == 0 {
        return 0;
    }
    if r.depth[1] == 0 {
        return 1;
    }
    if r.read_out(tables, 1) {
        return 0;
    }
    if r.read_out(tables, 0) {
        return 1;
    }
    let fall = |t: usize| r.worth(tables, t, 1) - r.worth(tables, t, r.depth[t]);
    match (fall(0), fall(1)) {
        (x, y) if x < y => 0,
        (x, y) if x > y => 1,
        _ => usize::from(r.depth[0] > r.depth[1]),
    }
}

pub fn open(opening: impl Into<Opening>, f: &[i32], t: &[i32]) -> (Said, Record) {
    let opening = opening.into();
    let mut record = Record::of(&[0; NUMBERS]);
    let code = open_refused(&opening, f, t);
    if code != 0 {
        return (Said::Refused(code), record);
    }
    let is_new = opening.kind == [3, 4];
    let wide = wide(if is_new { Card::New } else { Card::Old });
    record.query = opening.query;
    record.weight = opening.weight;
    record.rows = [f, t].map(|numbers| (numbers.len() / wide) as u32);
    record.card = if is_new { 3 } else { 2 };
    record.tolerance = opening.tolerance;
    record.meaning = opening.meaning.min(1);
    (Said::Opened, record)
}

/// The rows of one block: from + 1 to to.
#[derive(Clone, Copy)]
struct Block {
    from: u32,
    to: u32,
}

/// A new block of one table meets an old one of the other: skipped or joined.
fn meet(tables: Both, r: &mut Record, new: usize, block: Block, met: Block) {
    let old = 1 - new;
    let first = r.worth(tables, new, block.from + 1) + r.worth(tables, old, met.from + 1);
    let is_full = r.out + r.held == r.query.k;
    let low = is_full && r.pairs().iter().map(|p| p.sum).min().is_some_and(|low| first < low);
    let (here, there) = (tables[new].part(block.from, block.to), tables[old].part(met.from, met.to));
    if low || r.reach().far_apart(here, there, tables[new].wide) {
        return;
    }
    let mut best = r.pairs().to_vec();
    for i in block.from + 1..=block.to {
        for j in met.from + 1..=met.to {
            let (x, y) = if new == 0 { (i, j) } else { (j, i) };
            if r.reach().qualifies(tables[0].row(x), tables[1].row(y)) {
                let sum = r.worth(tables, 0, x) + r.worth(tables, 1, y);
                best.push(Pair { sum, field: x, trim: y });
            }
        }
    }
    best.sort_by_key(rank);
    best.truncate((r.query.k - r.out) as usize);
    r.hold(&best);
    r.joined += 1;
}

pub fn read(f: &[i32], t: &[i32], r: &mut Record) -> Said {
    let tables = match called(f, t, r) {
        Ok(tables) => tables,
        Err(code) => return Said::Refused(code),
    };
    if settled(tables, r) {
        return Said::Settled;
    }
    let new = next_table(tables, r);
    let block = Block { from: r.depth[new], to: (r.depth[new] + r.query.block).min(r.rows[new]) };
    let code = rows_refused(tables[new], block.from, block.to);
    if code != 0 {
        return Said::Refused(code);
    }
    let depth = r.depth[1 - new];
    for from in (0..depth).step_by(r.query.block as usize) {
        let to = (from + r.query.block).min(depth);
        meet(tables, r, new, block, Block { from, to });
    }
    r.depth[new] = block.to;
    r.last = new as u32 + 1;
    r.changed();
    Said::Read
}

pub fn take(f: &[i32], t: &[i32], r: &mut Record) -> Said {
    let tables = match called(f, t, r) {
        Ok(tables) => tables,
        Err(code) => return Said::Refused(code),
    };
    if r.held > 0 && secured(tables, r, &r.places[0]) {
        let given = r.places[0];
        let rest = r.pairs()[1..].to_vec();
        r.hold(&rest);
        r.out += 1;
        r.changed();
        return Said::Given(given);
    }
    let read_out = r.both_read_out(tables) && r.held == 0;
    if r.out == r.query.k || r.meets_nothing() || r.has_empty_table(tables) || read_out {
        Said::Finished
    } else {
        Said::NotYet
    }
}

/// Table, first row and count of the rows last read; zeros where there are none.
pub fn show(f: &[i32], t: &[i32], r: &Record) -> [u32; 3] {
    if lent(f, t, r).is_err() || r.last == 0 {
        return [0; 3];
    }
    let depth = r.depth[r.last as usize - 1];
    let before = (depth - 1) / r.query.block * r.query.block;
    [r.last, before + 1, depth - before]
}
