//! Calls that must be refused, each by a number known from how it was made and not from the model: records, slices, rows
//! and openings with a fault, some with two, which are refused by the first. A refused call changes nothing.
use furzeladle::raw::Session;
use furzeladle::{Asked, Card, Pair, Progress, RECORD_SIZE};
use furzeladle_tests::beside;
use furzeladle_tests::cases::{asked, card, table, withdraw, Dice, Spread};
use furzeladle_tests::model::{wide, Opening, Record};
use furzeladle_tests::places::near_by_ends;
use std::collections::HashMap;

const CASES: u64 = 800;

/// How often each number refused.
type Counts = HashMap<u32, u32>;

/// A read and a take with this record over these slices are refused by this number and leave the record as it stood.
/// Where 5 or 4 refuses, nothing is shown.
fn refused(record: &Record, f: &[i32], t: &[i32], number: u32, counts: &mut Counts) {
    let stood: [u32; RECORD_SIZE] = record.flat().try_into().unwrap();
    let mut session = Session::from_record(stood);
    assert_eq!(session.read(f, t).map_err(|r| r.number), Err(number), "{record:?}");
    assert_eq!(session.take(f, t).map_err(|r| r.number), Err(number), "{record:?}");
    assert_eq!(session.record(), &stood);
    assert!(number > 5 || session.show(f, t).is_none());
    *counts.entry(number).or_default() += 2;
}

/// A change of a record.
type Harm = fn(&mut Record);

fn pair(sum: u32, field: u32, trim: u32) -> Pair {
    Pair { sum, field, trim }
}

/// Thirty ways to make a record that 5 refuses of one that it does not. One that needs a longer block, a second row or a
/// held pair is another where there is none.
const HARMS: [Harm; 30] = [
    // its pair places, whether a pair is held there or none is
    |r| r.places[0] = pair(179_983, 1, 1),
    |r| r.places[0] = pair(5, 0, 1),
    |r| r.places[0] = pair(5, 1, 0),
    |r| r.places[0] = pair(5, r.depth[0] + 1, 1),
    |r| r.places[0] = pair(5, 1, r.depth[1] + 1),
    |r| r.places[1] = if r.held > 0 { r.places[0] } else { pair(20_000, 0, 0) },
    |r| r.places[63] = pair(20_000, 0, 0),
    // its query
    |r| r.query.k = 0,
    |r| r.query.k = 65,
    |r| r.query.block = 0,
    |r| r.query.block = 1_025,
    |r| r.query.radius = 40_001,
    |r| r.weight[0] = 0,
    |r| r.weight[1] = 10,
    |r| r.tolerance[0] = 501,
    |r| r.tolerance[1] = 501,
    // rows read for a query that nothing can meet
    |r| (r.query.radius, r.meaning, r.tolerance) = (0, 1, [if r.depth == [0, 0] { 501 } else { 500 }, 0]),
    // its counts
    |r| r.out = 65,
    |r| r.held = 65,
    |r| r.last = 3,
    |r| r.last = u32::from(r.last == 0),
    |r| r.rows[0] = 65_536,
    |r| r.rows[1] = 65_536,
    |r| r.depth[0] = r.rows[0] + 1,
    |r| r.depth[1] = r.rows[1] + 1,
    |r| r.card = 0,
    |r| r.card = 1,
    |r| r.card = 4,
    |r| {
        if r.query.block > 1 && r.rows[0] > 1 {
            r.depth[0] = 1;
        } else {
            r.joined = 1 << 40;
        }
    },
    |r| r.joined = 1 << 40,
];

fn harmed_records(record: &Record, f: &[i32], t: &[i32], counts: &mut Counts) {
    for harm in HARMS {
        let mut harmed = record.clone();
        harm(&mut harmed);
        assert_ne!(&harmed, record);
        refused(&harmed, f, t, 5, counts);
    }
}

fn other_card(card: Card) -> Card {
    match card {
        Card::Old => Card::New,
        Card::New => Card::Old,
    }
}

/// As many numbers as the same rows have on the other card.
fn turned(n: usize, wide: usize) -> usize {
    n / wide * (9 - wide)
}

/// This many numbers: the table's, then others.
fn sized(t: &[i32], n: usize) -> Vec<i32> {
    t.iter().copied().chain(std::iter::repeat(1)).take(n).collect()
}

/// Slices of another size than the record's; the record on the other card.
fn harmed_sizes(record: &Record, asked: Asked, f: &[i32], t: &[i32], counts: &mut Counts) {
    let wide = wide(asked.field_card);
    let others = |n: usize| match n {
        0 => vec![wide],
        _ => vec![n - 1, n + 1, n - wide, n + wide, turned(n, wide)],
    };
    others(f.len()).iter().for_each(|&n| refused(record, &sized(f, n), t, 4, counts));
    others(t.len()).iter().for_each(|&n| refused(record, f, &sized(t, n), 4, counts));
    if f.is_empty() && t.is_empty() {
        return;
    }
    let other = asked.on(other_card(asked.field_card));
    let alike = &[0; 5][..9 - wide];
    let beyond_all = !near_by_ends(&other, alike, alike) && record.depth != [0, 0];
    let turned = Record { card: 5 - record.card, ..record.clone() };
    refused(&turned, f, t, if beyond_all { 5 } else { 4 }, counts);
}

/// Numbers that no row has, two for each column.
const BAD: [(usize, i32); 10] = [
    (0, 0),
    (0, 1_000_000),
    (1, -1),
    (1, 10_000),
    (2, -12_801),
    (2, 12_701),
    (3, -12_801),
    (3, 12_701),
    (4, -1),
    (4, 10_001),
];

/// The table with another number in a row that it has.
fn with_number(t: &[i32], wide: usize, row: u32, column: usize, x: i32) -> Vec<i32> {
    let mut t = t.to_vec();
    if let Some(number) = t.get_mut(wide * (row as usize - 1) + column) {
        *number = x;
    }
    t
}

/// Whether a row has one before it and can have a higher score.
fn can_rise(t: &[i32], wide: usize, row: u32) -> bool {
    row > 1 && t[wide * (row as usize - 2) + 1] < 9_999
}

/// A row that was read has a number out of range, or a higher score than the row before.
fn harmed_rows(record: &Record, asked: Asked, f: &[i32], t: &[i32], counts: &mut Counts) {
    let wide = wide(asked.field_card);
    for (i, whole) in [f, t].into_iter().enumerate() {
        let mut over = |harmed: Vec<i32>, number: u32| {
            let (f, t) = if i == 0 { (harmed.as_slice(), t) } else { (f, harmed.as_slice()) };
            refused(record, f, t, number, counts);
        };
        for row in 1..=record.depth[i] {
            let bad = BAD.iter().filter(|(column, _)| *column < wide);
            bad.for_each(|&(column, x)| over(with_number(whole, wide, row, column, x), 6));
            if can_rise(whole, wide, row) {
                over(with_number(whole, wide, row, 1, 9_999), 7);
            }
        }
    }
}

/// The next row of each table is harmed: a read that is not settled refuses it, one that is does not look at it.
fn harmed_block(session: &Session, asked: Asked, f: &[i32], t: &[i32], counts: &mut Counts) {
    let (wide, (p, q)) = (wide(asked.field_card), session.depths());
    let read = |column: usize, x: i32| {
        let mut after = session.clone();
        let [f, t] = [(f, p), (t, q)].map(|(t, depth)| with_number(t, wide, depth + 1, column, x));
        let answer = after.read(&f, &t).map_err(|r| r.number);
        assert_eq!(&after, session);
        answer
    };
    if session.clone().read(f, t) == Ok(Progress::Settled) {
        return assert_eq!(read(0, 0), Ok(Progress::Settled));
    }
    let mut must = |column: usize, x: i32, number: u32| {
        assert_eq!(read(column, x), Err(number));
        *counts.entry(number).or_default() += 1;
    };
    must(0, 0, 6);
    if wide == 5 {
        must(4, 10_001, 6);
    }
    let rises = |t: &[i32], depth: u32| t.len() == wide * depth as usize || can_rise(t, wide, depth + 1);
    if rises(f, p) && rises(t, q) {
        must(1, 9_999, 7);
    }
}

/// Places of a query's ten numbers.
const K: usize = 0;
const BLOCK: usize = 1;
const RADIUS: usize = 2;
const WEIGHTS: usize = 3;
const KINDS: usize = 5;
const TOLERANCES: usize = 7;

/// An opening with these numbers in place of others, and so many numbers lent, is refused by this number.
fn opening(asked: Asked, others: &[(usize, u32)], lens: [usize; 2], number: u32, counts: &mut Counts) {
    let mut query = Opening::from(asked).numbers();
    others.iter().for_each(|&(place, x)| query[place] = x);
    let [f, t] = lens.map(|n| vec![1; n]);
    assert_eq!(beside::opened(&query, &f, &t), -(number as i32), "{others:?}, {lens:?}");
    *counts.entry(number).or_default() += 1;
}

/// Queries out of range and tables of a part of a row.
fn harmed_openings(asked: Asked, m: usize, n: usize, counts: &mut Counts) {
    let mut must = |others: &[(usize, u32)], lens: [usize; 2], number: u32| opening(asked, others, lens, number, counts);
    let (v, w, t, u) = (WEIGHTS, WEIGHTS + 1, TOLERANCES, TOLERANCES + 1);
    [0, 65].iter().for_each(|&k| must(&[(K, k)], [m, n], 1));
    [0, 1_025].iter().for_each(|&block| must(&[(BLOCK, block)], [m, n], 2));
    must(&[(RADIUS, 40_001), (v, 0), (w, 10)], [m, n], 3);
    must(&[(v, 10)], [m, 7], 12);
    must(&[(w, 0)], [m, n], 12);
    must(&[(w, 10), (t, 501), (u, 501)], [m, n], 12);
    must(&[(t, 501)], [m, n], 16);
    must(&[(u, 501)], [7, n], 16);
    // no whole rows, and whole rows on the other card only
    for size in [7, if asked.field_card == Card::New { 48 } else { 50 }] {
        must(&[], [size, n], 4);
        must(&[], [m, size], 4);
    }
}

/// Kinds that are not the table's, and tables on two cards: all rows of them, some or none.
fn unlike_openings(asked: Asked, m: usize, n: usize, counts: &mut Counts) {
    let mut must = |others: &[(usize, u32)], lens: [usize; 2], number: u32| opening(asked, others, lens, number, counts);
    let (field, trim) = (KINDS, KINDS + 1);
    for (no_field, no_trim) in [(0, 0), (2, 1), (4, 3), (5, 5)] {
        must(&[(field, no_field)], [m, n], 10);
        must(&[(trim, no_trim)], [m, n], 10);
        must(&[(trim, no_trim)], [7, n], 10);
        must(&[(field, no_field), (WEIGHTS + 1, 10)], [m, n], 12);
        must(&[(trim, no_trim), (TOLERANCES + 1, 501)], [m, n], 16);
    }
    let wide = wide(asked.field_card);
    let [other_field, other_trim] = Opening::from(asked.on(other_card(asked.field_card))).kind;
    must(&[(field, other_field)], [turned(m, wide), n], 15);
    must(&[(trim, other_trim)], [m, turned(n, wide)], 15);
    must(&[(field, other_field)], [0, n], 15);
    must(&[(trim, other_trim)], [m, 0], 15);
    must(&[(trim, other_trim)], [0, 0], 15);
    must(&[(field, other_field)], [7, n], 4);
    must(&[(trim, other_trim)], [m, 7], 4);
    must(&[(field, other_field), (WEIGHTS, 0)], [0, 0], 12);
}

#[test]
fn calls_refused_by_how_they_were_made() {
    let mut counts = Counts::new();
    for seed in 0..CASES {
        let mut dice = Dice::new(seed + 2_000_001);
        let card = card(&mut dice);
        let spread = Spread::of(&mut dice, card);
        let [f, t] = [(); 2].map(|()| {
            let rows = dice.below(13);
            let mut t = table(&mut dice, rows, spread);
            withdraw(&mut dice, card, &mut t);
            t
        });
        let asked = asked(&mut dice, card);
        harmed_openings(asked, f.len(), t.len(), &mut counts);
        unlike_openings(asked, f.len(), t.len(), &mut counts);
        let mut session = Session::open(asked, &f, &t).unwrap();
        for _ in 0..dice.below(12) {
            let record = Record::of(session.record());
            harmed_records(&record, &f, &t, &mut counts);
            harmed_sizes(&record, asked, &f, &t, &mut counts);
            harmed_rows(&record, asked, &f, &t, &mut counts);
            harmed_block(&session, asked, &f, &t, &mut counts);
            if dice.one_in(2) {
                session.read(&f, &t).unwrap();
            } else {
                session.take(&f, &t).unwrap();
            }
        }
    }
    println!("{CASES} sessions: {counts:?}");
    assert!([1, 2, 3, 4, 5, 6, 7, 10, 12, 15, 16].iter().all(|number| counts[number] >= 800), "{counts:?}");
}
