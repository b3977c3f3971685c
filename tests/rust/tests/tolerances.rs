//! Shades known within tolerances: pairs that qualify surely or possibly, by all places of their shades; the query that
//! nothing can meet; gaps between blocks; and the numbers of a query and of a record that say so.
use furzeladle::raw::{list, Refusal, Session};
use furzeladle::{Asked, Card, FieldTolerance, Meaning, Pair, Progress, Query, Taken, TrimTolerance, RECORD_SIZE};
use furzeladle_tests::beside::{answers, call, opened, run};
use furzeladle_tests::cases::{asked, card, scored_on, table, weighted, withdraw, Dice, Spread};
use furzeladle_tests::lent;
use furzeladle_tests::model::{self, Opening, Reach, Record, Said};
use furzeladle_tests::places::{near_by_ends, near_by_places, nearest_and_farthest};

const CARDS: [Card; 2] = [Card::Old, Card::New];
const MEANINGS: [Meaning; 2] = [Meaning::Possibly, Meaning::Surely];
const READ: bool = true;
const TAKE: bool = false;
/// The rules' worked query and its tables.
const QUERY: Query = Query { k: 2, block: 1, radius: 5 };
const FIELD: [i32; 20] = [101, 90, 0, 0, 102, 80, 100, 0, 103, 60, 0, 300, 104, 40, 500, 500, 105, 10, 0, 0];
const TRIM: [i32; 20] = [201, 70, 400, 0, 202, 50, 3, 4, 203, 30, 100, 5, 204, 20, 0, 300, 205, 15, 500, 500];

/// A query with these tolerances, and this made of them.
fn faded(asked: impl Into<Asked>, field: u32, trim: u32, meaning: Meaning) -> Asked {
    asked.into().tolerating(FieldTolerance(field), TrimTolerance(trim), meaning)
}

/// A row on a card.
fn row(card: Card, shade: [i32; 3]) -> Vec<i32> {
    [1, 9].into_iter().chain(shade).take(model::wide(card)).collect()
}

/// Two seeded tables on a card, of fewer rows than this.
fn two_tables(dice: &mut Dice, card: Card, most: u32) -> [Vec<i32>; 2] {
    let spread = Spread::of(dice, card);
    [(); 2].map(|()| {
        let rows = dice.below(most);
        let mut t = table(dice, rows, spread);
        withdraw(dice, card, &mut t);
        t
    })
}

// ---- By all places

/// Two rows, at every small radius and with either meaning: whether they are a pair, whether they are read for it, and
/// whether their blocks are joined, by all places of their shades. How often each was so.
fn two_rows(asked: Asked, x: &[i32], y: &[i32]) -> [u32; 3] {
    let (nearest, farthest) = nearest_and_farthest(&asked, x, y);
    let (_, of_equal_shades) = nearest_and_farthest(&asked, x, x);
    let mut counts = [0; 3];
    for (radius, meaning) in (0..=16).flat_map(|radius| MEANINGS.map(|meaning| (radius, meaning))) {
        let mut asked = asked;
        (asked.query.radius, asked.meaning) = (radius, meaning);
        let square = u64::from(radius).pow(2);
        let (is_near, is_read) = match meaning {
            Meaning::Surely => (farthest <= square, of_equal_shades <= square),
            Meaning::Possibly => (nearest <= square, true),
        };
        let is_joined = is_read && nearest <= square;
        assert_eq!((near_by_places(&asked, x, y), near_by_ends(&asked, x, y)), (is_near, is_near));
        assert_eq!(Reach::from(asked).near(x, y), is_near, "{asked:?} {x:?} {y:?}");
        let found = list(asked, x, y).unwrap();
        let depth = u32::from(is_read);
        assert_eq!((found.pairs.len(), found.depths), (usize::from(is_near), (depth, depth)), "{asked:?} {x:?} {y:?}");
        assert_eq!(found.joined, u64::from(is_joined), "{asked:?} {x:?} {y:?}");
        counts.iter_mut().zip([is_near, is_read, is_joined]).for_each(|(count, so)| *count += u32::from(so));
    }
    counts
}

/// Every tolerance up to 2 of each table, shades up to 5 apart in every coordinate, from the middle of a table's limits
/// and from both ends, where places lie past them.
#[test]
fn every_place_within_small_tolerances() {
    let starts = [([0, 0, 5_000], 1), ([-12_800, -12_800, 0], 1), ([12_700, 12_700, 10_000], -1)];
    let apart = |card| [&[0][..], &[0, 1, 3, 5]][usize::from(card == Card::New)];
    let (mut tried, mut totals) = (0, [0; 3]);
    for (card, (start, inward)) in CARDS.into_iter().flat_map(|card| starts.map(|start| (card, start))) {
        let shades = (0..36).flat_map(|i| apart(card).iter().map(move |l| [i / 6, i % 6, *l]));
        for (shade, i) in shades.flat_map(|shade| (0..9).map(move |i| (shade, i))) {
            let asked = faded(Query { k: 1, block: 1, radius: 0 }.on(card), i / 3, i % 3, Meaning::Possibly);
            let other = [0, 1, 2].map(|at| start[at] + inward * shade[at]);
            let counts = two_rows(asked, &row(card, start), &row(card, other));
            totals.iter_mut().zip(counts).for_each(|(total, count)| *total += count);
            tried += 2 * 17;
        }
    }
    println!("{tried} queries of two rows: {totals:?} near, read, joined");
    assert!(totals.iter().all(|total| *total > 10_000 && tried - total > 10_000));
}

/// If places could not pass the limits, equal shades in a corner would lie at most 1 apart in a coordinate, not 2.
#[test]
fn places_past_the_limits() {
    for corner in [[-12_800, -12_800, 0], [12_700, 12_700, 10_000], [-12_800, 12_700, 0]] {
        for (card, square) in [(Card::Old, 8), (Card::New, 12)] {
            let x = row(card, corner);
            let pairs = |radius| {
                let query = Query { k: 1, block: 1, radius }.on(card);
                run(faded(query, 1, 1, Meaning::Surely), &x, &x).0.len()
            };
            let taken_in = |radius: u32| usize::from(radius * radius >= square);
            assert!((0..6).all(|radius| pairs(radius) == taken_in(radius)), "{corner:?}");
        }
    }
}

// ---- The two meanings

/// The pairs of a query, named by their rows.
fn pairs(asked: Asked, f: &[i32], t: &[i32]) -> Vec<(u32, u32)> {
    let found = list(asked, f, t).unwrap();
    assert!(found.pairs.len() < 64);
    found.pairs.iter().map(|listed| (listed.pair.field, listed.pair.trim)).collect()
}

/// Pairs that qualify surely qualify without tolerances, and those possibly; the more so the greater these are.
#[test]
fn surely_within_possibly() {
    let mut more = [0; 4];
    for seed in 0..6_000 {
        let mut dice = Dice::new(seed + 6_000_001);
        let card = card(&mut dice);
        let [f, t] = two_tables(&mut dice, card, 8);
        let mut asked = weighted(&mut dice, card);
        asked.query.k = 64;
        let [u, v, w] = [(); 3].map(|()| dice.below(4));
        let chain = [
            faded(asked, u + w, v, Meaning::Surely),
            faded(asked, u, v, Meaning::Surely),
            asked,
            faded(asked, u, v, Meaning::Possibly),
            faded(asked, u, v + w, Meaning::Possibly),
        ];
        let found = chain.map(|asked| pairs(asked, &f, &t));
        for (i, fewer) in found.windows(2).enumerate() {
            assert!(fewer[0].iter().all(|pair| fewer[1].contains(pair)), "seed {seed}");
            more[i] += u32::from(fewer[0].len() < fewer[1].len());
        }
    }
    println!("tables with more pairs than in the step before: {more:?}");
    assert!(more.iter().all(|count| *count > 200));
}

/// At tolerances 0 and 0 both meanings are the same, call by call; the record alone tells them apart.
#[test]
fn both_meanings_without_tolerances() {
    for seed in 0..2_000 {
        let mut dice = Dice::new(seed + 7_000_001);
        let card = card(&mut dice);
        let [f, t] = two_tables(&mut dice, card, 30);
        let asked = weighted(&mut dice, card);
        let both = MEANINGS.map(|meaning| faded(asked, 0, 0, meaning));
        assert_eq!(list(both[0], &f, &t), list(both[1], &f, &t), "seed {seed}");
        let mut sessions = both.map(|asked| Session::open(asked, &f, &t).unwrap());
        for _ in 0..20 {
            let is_read = dice.one_in(2);
            let said = sessions.each_mut().map(|s| match is_read {
                true => (Some(s.read(&f, &t)), None),
                false => (None, Some(s.take(&f, &t))),
            });
            assert_eq!(said[0], said[1], "seed {seed}");
            let [possibly, surely] = sessions.each_ref().map(|s| s.record());
            assert_eq!(possibly[..209], surely[..209], "seed {seed}");
            assert_eq!((possibly[209], surely[209]), (0, 1), "seed {seed}");
        }
    }
}

/// The two tolerances count by their sum, and are kept apart in the record.
#[test]
fn tolerances_kept_apart() {
    for seed in 0..500 {
        let mut dice = Dice::new(seed + 8_000_001);
        let (card, meaning) = (card(&mut dice), dice.pick(&MEANINGS));
        let [f, t] = two_tables(&mut dice, card, 30);
        let asked = weighted(&mut dice, card);
        let sum = dice.pick(&[1, 2, 5, 500]);
        let (wanted, first) = run(faded(asked, sum, 0, meaning), &f, &t);
        for u in [0, 1, sum / 2, sum] {
            let tolerance = [u, sum - u];
            let (found, record) = run(faded(asked, u, sum - u, meaning), &f, &t);
            assert_eq!((&found, &record), (&wanted, &Record { tolerance, ..first.clone() }), "seed {seed}");
        }
    }
    for [u, v, meaning] in [[5, 0, 0], [0, 5, 0], [2, 3, 1]] {
        let query = [2, 1, 5, 7, 8, 1, 2, u, v, meaning];
        assert_eq!(lent::answers(&query, &FIELD, &TRIM).opened.1[204..], [7, 8, 2, u, v, meaning]);
    }
}

/// The worked query's first pair lies 3 and 4 apart, its second 0 and 5.
#[test]
fn the_worked_query_with_tolerances() {
    let found = |radius, u, v, meaning| {
        let (pairs, record) = run(faded(Query { radius, ..QUERY }, u, v, meaning), &FIELD, &TRIM);
        (pairs.iter().map(|pair| pair.sum).collect::<Vec<_>>(), record.depth, record.joined)
    };
    for (u, v) in [(1, 1), (2, 0), (0, 2)] {
        // 1 and 2 at the nearest, 0 and 3
        assert_eq!(found(3, u, v, Meaning::Possibly), (vec![140, 110], [4, 4], 2));
        assert_eq!(found(2, u, v, Meaning::Possibly), (vec![80, 55], [5, 5], 2));
        // 5 and 6 at the farthest, 2 and 7
        assert_eq!(found(8, u, v, Meaning::Surely), (vec![140, 110], [4, 4], 2));
        assert_eq!(found(7, u, v, Meaning::Surely), (vec![80, 55], [5, 5], 5));
    }
    // the squared distance is that of the shades as the tables have them
    let listed = list(faded(Query { radius: 0, ..QUERY }, 2, 3, Meaning::Possibly), &FIELD, &TRIM).unwrap();
    assert_eq!(listed.pairs.iter().map(|listed| listed.squared_distance).collect::<Vec<_>>(), [25, 25]);
}

// ---- The query that nothing can meet

/// Tolerances 2 and 3 at radius 8: equal shades may lie 5 apart in each coordinate, 50 on the old card, 75 on the new.
const BEYOND: Query = Query { k: 2, block: 1, radius: 8 };

#[test]
fn a_query_beyond_all_shades() {
    let ended = |asked: Asked| {
        let [f, t] = [&[9, 8][..], &[7]].map(|scores| scored_on(asked.field_card, scores));
        let (pairs, record) = run(asked, &f, &t);
        (pairs.len(), record.depth, record.joined)
    };
    let surely = |radius, card| ended(faded(Query { radius, ..BEYOND }.on(card), 2, 3, Meaning::Surely));
    assert_eq!(surely(8, Card::Old), (2, [2, 1], 2));
    assert_eq!(surely(7, Card::Old), (0, [0, 0], 0));
    assert_eq!(surely(8, Card::New), (0, [0, 0], 0));
    assert_eq!(surely(9, Card::New), (2, [2, 1], 2));
    for card in CARDS {
        assert_eq!(ended(faded(Query { radius: 0, ..BEYOND }.on(card), 2, 3, Meaning::Possibly)), (2, [2, 1], 2));
        assert_eq!(ended(faded(Query { radius: 0, ..BEYOND }.on(card), 0, 0, Meaning::Surely)), (2, [2, 1], 2));
        assert_eq!(ended(faded(Query { radius: 0, ..BEYOND }.on(card), 0, 1, Meaning::Surely)), (0, [0, 0], 0));
    }
}

/// Read answers settled, take finished, show nothing; no row is looked at, but slices must be those of opening.
#[test]
fn calls_of_a_query_beyond_all_shades() {
    let asked = faded(BEYOND.on(Card::New), 2, 3, Meaning::Surely);
    let no_rows = vec![0; 15];
    for (f, t) in [(&no_rows[..], &no_rows[..10]), (&[], &no_rows), (&no_rows, &[]), (&[], &[])] {
        let mut s = Session::open(asked, f, t).unwrap();
        let before = s.clone();
        assert_eq!((s.take(f, t), s.read(f, t)), (Ok(Taken::Finished), Ok(Progress::Settled)));
        assert_eq!((s.read(f, t), s.take(f, t)), (Ok(Progress::Settled), Ok(Taken::Finished)));
        assert_eq!((s.show(f, t), s.depths(), s.joined()), (None, (0, 0), 0));
        let four = Refusal { number: 4, row: 0 };
        assert_eq!((s.read(f, &no_rows[..5]), s.take(&no_rows[..9], t)), (Err(four), Err(four)));
        assert_eq!(s, before);
        let found = list(asked, f, t).unwrap();
        assert_eq!((found.pairs.len(), found.depths, found.joined), (0, (0, 0), 0));
    }
}

/// A record of it in which rows are read is 5, whatever tables are lent; pairs out are believed.
#[test]
fn records_of_a_query_beyond_all_shades() {
    let (f, t) = (scored_on(Card::New, &[9, 8]), scored_on(Card::New, &[7]));
    let (_, opened) = model::open(faded(BEYOND.on(Card::New), 2, 3, Meaning::Surely), &f, &t);
    let calls = |record: &Record, f: &[i32]| answers(record, f, &t, &[READ, TAKE]).0;
    let depths = [([1, 0], 1), ([2, 0], 1), ([0, 1], 2), ([1, 1], 1), ([1, 1], 2), ([2, 1], 2)];
    for (depth, last) in depths {
        let read = Record { depth, last, ..opened.clone() };
        assert_eq!(calls(&read, &f), [Said::Refused(5); 2], "{depth:?}");
        assert_eq!(calls(&read, &f[..9]), [Said::Refused(5); 2], "{depth:?}");
        let fits = |record: Record| !matches!(calls(&record, &f)[..], [Said::Refused(_), _] | [_, Said::Refused(_)]);
        assert!(fits(Record { meaning: 0, ..read.clone() }), "{depth:?}");
        assert!(fits(Record { tolerance: [2, 2], ..read.clone() }), "{depth:?}");
        assert!(fits(Record { query: Query { radius: 9, ..BEYOND }, ..read.clone() }), "{depth:?}");
        let on_the_old_card = Record { card: 2, ..read };
        let [old_f, old_t] = [&[9, 8][..], &[7]].map(|scores| scored_on(Card::Old, scores));
        let said = answers(&on_the_old_card, &old_f, &old_t, &[READ, TAKE]).0;
        assert!(!said.iter().any(|said| matches!(said, Said::Refused(_))), "{depth:?}");
    }
    for out in [1, 2] {
        assert_eq!(calls(&Record { out, ..opened.clone() }, &f), [Said::Settled, Said::Finished]);
    }
    assert_eq!(calls(&Record { out: 3, ..opened.clone() }, &f), [Said::Refused(5); 2]);
    assert_eq!(calls(&Record { last: 1, ..opened }, &f), [Said::Refused(5); 2]);
}

/// A field table that begins with a withdrawn row is settled after its first block, but before it where nothing can
/// qualify anyhow.
#[test]
fn a_withdrawn_first_field_row_that_is_not_read() {
    for (card, radius, depth) in [(Card::Old, 8, [2, 0]), (Card::Old, 7, [0, 0]), (Card::New, 8, [0, 0])] {
        let (f, t) = (scored_on(card, &[0, 0, 0]), scored_on(card, &[7, 6]));
        let query = Query { k: 2, block: 2, radius }.on(card);
        let (pairs, record) = run(faded(query, 2, 3, Meaning::Surely), &f, &t);
        assert_eq!((pairs.len(), record.depth, record.joined), (0, depth, 0), "{radius}");
    }
}

// ---- Gaps between blocks

/// How many block pairs are joined of a block from -10 to 10 in every coordinate, L from 4,990 to 5,010, and one that
/// begins so far off its upper end.
fn joined(asked: Asked, gaps: [i32; 3]) -> u64 {
    let card = asked.field_card;
    let block = |from: [i32; 3], to: [i32; 3]| [row(card, from), row(card, to)].concat();
    let off = |by: i32| [0, 1, 2].map(|at| [10, 10, 5_010][at] + gaps[at] + by);
    let (f, t) = (block([-10, -10, 4_990], [10, 10, 5_010]), block(off(0), off(30)));
    let (one_way, other_way) = (run(asked, &f, &t).1.joined, run(asked, &t, &f).1.joined);
    assert_eq!(one_way, other_way);
    one_way
}

/// At radius 5 and tolerances of 2 together each gap counts 2 less, and one of 1 counts nothing; under both meanings.
#[test]
fn gaps_lowered_by_the_tolerances() {
    let gaps = [
        ([7, 0, 0], 1),
        ([8, 0, 0], 0),
        ([0, 7, 0], 1),
        ([0, 8, 0], 0),
        // those below 2 add nothing
        ([7, 1, 1], 1),
        ([1, 7, 1], 1),
        ([7, 2, 2], 1),
        ([7, 3, 0], 0),
        // 3 and 4 are 5, 4 and 4 are more
        ([5, 6, 0], 1),
        ([6, 5, 2], 1),
        ([6, 6, 0], 0),
    ];
    let by_light = [([0, 0, 7], 1), ([0, 0, 8], 0), ([1, 1, 7], 1), ([5, 0, 6], 1), ([6, 0, 6], 0), ([4, 3, 6], 1)];
    let query = Query { k: 64, block: 2, radius: 5 };
    for (u, v, meaning) in [(2, 0), (1, 1), (0, 2)].into_iter().flat_map(|(u, v)| MEANINGS.map(|m| (u, v, m))) {
        for (gaps, wanted) in gaps {
            assert_eq!(joined(faded(query, u, v, meaning), gaps), wanted, "{gaps:?}, {meaning:?}");
        }
        for (gaps, wanted) in gaps.into_iter().chain(by_light) {
            assert_eq!(joined(faded(query.on(Card::New), u, v, meaning), gaps), wanted, "{gaps:?}, {meaning:?}");
        }
    }
    assert_eq!([5, 6].map(|gap| joined(faded(query, 0, 0, Meaning::Surely), [gap, 0, 0])), [1, 0]);
}

/// The ends of all limits at the greatest tolerances: which least radius takes in two shades, and joins their blocks.
#[test]
fn the_ends_of_all_limits() {
    let (low, high) = ([-12_800, -12_800, 0], [12_700, 12_700, 10_000]);
    for (card, nearest, farthest, equal) in [(Card::Old, 34_649, 37_477, 1_415), (Card::New, 35_799, 39_058, 1_733)] {
        let ended = |meaning, radius, y| {
            let query = Query { k: 1, block: 1, radius }.on(card);
            let (x, y) = (row(card, low), row(card, y));
            let (pairs, record) = run(faded(query, 500, 500, meaning), &x, &y);
            (pairs.len(), record.depth[0], record.joined)
        };
        for (radius, wanted) in [(0, 0), (nearest - 1, 0), (nearest, 1), (40_000, 1)] {
            assert_eq!(ended(Meaning::Possibly, radius, high), (wanted, 1, wanted as u64), "{radius}");
        }
        for (radius, pairs, joined) in [(nearest - 1, 0, 0), (nearest, 0, 1), (farthest - 1, 0, 1), (farthest, 1, 1)] {
            assert_eq!(ended(Meaning::Surely, radius, high), (pairs, 1, joined), "{radius}");
        }
        assert_eq!(ended(Meaning::Surely, 40_000, high), (1, 1, 1));
        assert_eq!(ended(Meaning::Surely, equal - 1, low), (0, 0, 0));
        assert_eq!(ended(Meaning::Surely, equal, low), (1, 1, 1));
        assert_eq!(ended(Meaning::Possibly, 0, low), (1, 1, 1));
    }
}

// ---- Numbers

/// 16 comes after 12 and before 10, 4 and 15, whichever tolerance it is and whatever is made of it.
#[test]
fn tolerances_outside_their_range() {
    let refused = |numbers: [u32; 10], len: usize| {
        let found = lent::answers(&numbers, &FIELD[..len], &TRIM);
        assert_eq!((found.opened.1, found.listed.1, found.printed.1), ([7; 210], [7; 515], [7; 2_668]));
        assert_eq!((found.opened.0, found.listed.0), (found.listed.0, found.printed.0), "{numbers:?}");
        found.opened.0
    };
    let outside = [(501, 0), (0, 501), (501, 501), (u32::MAX, 0), (0, u32::MAX), (u32::MAX, 1), (1 << 31, 1 << 31)];
    for ((t, u), meaning) in outside.into_iter().flat_map(|both| [0, 1, 7].map(|meaning| (both, meaning))) {
        assert_eq!(refused([2, 1, 5, 1, 1, 1, 2, t, u, meaning], 20), -16);
        assert_eq!(refused([2, 1, 40_001, 1, 1, 1, 2, t, u, meaning], 20), -3);
        assert_eq!(refused([2, 1, 5, 10, 1, 1, 2, t, u, meaning], 20), -12);
        assert_eq!(refused([2, 1, 5, 1, 0, 0, 0, t, u, meaning], 19), -12);
        for (field_kind, trim_kind) in [(0, 2), (1, 1), (4, 4), (1, 4), (3, 2)] {
            assert_eq!(refused([2, 1, 5, 1, 1, field_kind, trim_kind, t, u, meaning], 20), -16);
        }
        assert_eq!(refused([2, 1, 5, 1, 1, 1, 2, t, u, meaning], 19), -16);
    }
    assert_eq!(refused([2, 1, 5, 1, 1, 1, 1, 500, 500, 1], 19), -10);
    assert_eq!(refused([2, 1, 5, 1, 1, 1, 2, 500, 500, 1], 19), -4);
    assert_eq!(refused([2, 1, 5, 1, 1, 3, 2, 500, 500, 1], 20), -15);
    let said = Refusal { number: 16, row: 0 };
    assert_eq!((said.word(), said.meaning()), ("tolerance", "a tolerance outside 0 to 500"));
}

/// Openings by any numbers, and by as many as a caller likes, beside the model.
#[test]
fn openings_by_any_numbers() {
    let mut refused = [0; 17];
    for seed in 0..20_000 {
        let mut dice = Dice::new(seed + 9_000_001);
        let card = card(&mut dice);
        let mut numbers = Opening::from(asked(&mut dice, card)).numbers().to_vec();
        for _ in 0..dice.below(4) {
            let place = dice.below(10) as usize;
            numbers[place] = dice.pick(&[0, 1, 2, 3, 4, 7, 10, 65, 500, 501, 1_025, 40_001, u32::MAX]);
        }
        numbers.push(dice.below(1_000));
        let count = dice.pick(&[3, 7, 8, 9, 10, 10, 10, 11]);
        let len = dice.pick(&[0, 4, 5, 20, 20]);
        refused[-opened(&numbers[..count], &FIELD[..len], &TRIM) as usize] += 1;
    }
    println!("refusals by number {refused:?}");
    assert!([0, 1, 2, 3, 4, 10, 12, 15, 16].iter().all(|number| refused[*number] > 100));
}

/// A session of the worked query after five reads.
fn after_five_reads(asked: impl Into<Asked>) -> Session {
    let mut s = Session::open(asked, &FIELD, &TRIM).unwrap();
    (0..5).for_each(|_| assert_eq!(s.read(&FIELD, &TRIM), Ok(Progress::Read)));
    s
}

/// What reads and takes of a record answer.
fn said(record: [u32; RECORD_SIZE], calls: &[bool]) -> Vec<Said> {
    answers(&Record::of(&record), &FIELD, &TRIM, calls).0
}

#[test]
fn records_with_tolerances_outside_their_range() {
    let s = after_five_reads(faded(QUERY, 2, 3, Meaning::Possibly));
    assert_eq!(s.record()[204..], [1, 1, 2, 2, 3, 0]);
    for (place, tolerance) in [207, 208].into_iter().flat_map(|place| [501, 502, u32::MAX, 1 << 31].map(|t| (place, t)))
    {
        let mut record = *s.record();
        record[place] = tolerance;
        assert_eq!(said(record, &[READ, TAKE]), [Said::Refused(5); 2], "{tolerance} at {place}");
        assert_eq!(Session::from_record(record).show(&FIELD, &TRIM), None);
        record[place] = 500;
        assert!(!said(record, &[READ, TAKE]).contains(&Said::Refused(5)), "500 at {place}");
    }
}

/// The first 207 numbers of a record are those from before there were tolerances: with three zeros behind them it goes
/// on.
#[test]
fn a_record_without_tolerances_goes_on() {
    for card in CARDS {
        let [f, t] = [[9, 8, 3], [7, 5, 5]].map(|scores| scored_on(card, &scores));
        let mut s = Session::open(Query { k: 3, block: 1, radius: 0 }.on(card), &f, &t).unwrap();
        assert_eq!([s.read(&f, &t), s.read(&f, &t)], [Ok(Progress::Read); 2]);
        let mut stored = [0; RECORD_SIZE];
        stored[..207].copy_from_slice(&s.record()[..207]);
        assert_eq!(Session::from_record(stored), s);
        let given = Taken::Given(Pair { sum: 16, field: 1, trim: 1 });
        assert_eq!(Session::from_record(stored).take(&f, &t), Ok(given));
    }
}

/// Any meaning but 0 is surely. A record that a call changes says so by 1; one that it leaves alone keeps its number.
#[test]
fn other_numbers_for_surely() {
    let asked = faded(Query { radius: 8, ..QUERY }, 1, 1, Meaning::Surely);
    let (opened, read) = (Session::open(asked, &FIELD, &TRIM).unwrap(), after_five_reads(asked));
    let [mut settled, mut finished] = [read.clone(), read.clone()];
    while settled.read(&FIELD, &TRIM) == Ok(Progress::Read) {}
    while finished.read(&FIELD, &TRIM) == Ok(Progress::Read) {}
    while finished.take(&FIELD, &TRIM) != Ok(Taken::Finished) {}
    let beyond = Session::open(faded(QUERY, 2, 2, Meaning::Surely), &FIELD, &TRIM).unwrap();
    let first = Pair { sum: 140, field: 1, trim: 2 };
    for meaning in [1, 2, 7, 256, 1 << 31, u32::MAX] {
        let query = |meaning| [2, 1, 8, 1, 1, 1, 2, 1, 1, meaning];
        assert_eq!(lent::answers(&query(meaning), &FIELD, &TRIM), lent::answers(&query(1), &FIELD, &TRIM));
        let after = |s: &Session, is_read: bool, f: &[i32]| {
            let mut record = *s.record();
            record[209] = meaning;
            let (mut s, mut record) = (Session::from_record(record), Record::of(&record));
            (call(is_read, f, &TRIM, &mut s, &mut record), s.record()[209])
        };
        assert_eq!(after(&opened, READ, &FIELD), (Said::Read, 1));
        assert_eq!(after(&read, READ, &FIELD), (Said::Read, 1));
        assert_eq!(after(&read, TAKE, &FIELD), (Said::Given(first), 1));
        assert_eq!(after(&opened, TAKE, &FIELD), (Said::NotYet, meaning));
        assert_eq!(after(&settled, READ, &FIELD), (Said::Settled, meaning));
        assert_eq!(after(&finished, TAKE, &FIELD), (Said::Finished, meaning));
        assert_eq!(after(&read, READ, &FIELD[..16]), (Said::Refused(4), meaning));
        assert_eq!(after(&read, TAKE, &FIELD[..19]), (Said::Refused(4), meaning));
        assert_eq!(after(&beyond, READ, &FIELD), (Said::Settled, meaning));
        assert_eq!(after(&beyond, TAKE, &FIELD), (Said::Finished, meaning));
    }
}

/// The same in a record that it makes one of a query beyond all shades: rows are read there, so it is 5.
#[test]
fn a_meaning_that_makes_a_record_bad() {
    let s = after_five_reads(faded(QUERY, 2, 2, Meaning::Possibly));
    for meaning in [1, 7, u32::MAX] {
        let mut record = *s.record();
        record[209] = meaning;
        assert_eq!(said(record, &[READ, TAKE]), [Said::Refused(5); 2]);
    }
}
