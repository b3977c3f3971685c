//! The session beside the model of the rules and the plain double loop: seeded tables on both cards, random calls.
use furzeladle::raw::{Refusal, Rows, Session};
use furzeladle::{Asked, Card, FieldTolerance, FieldWeight, Meaning, Pair, Progress, Query, Table};
use furzeladle::{Taken, TrimTolerance, TrimWeight, RECORD_SIZE};
use furzeladle_tests::beside::{self, answers, call, run, show};
use furzeladle_tests::cases::WITHDRAWN;
use furzeladle_tests::cases::{asked, card, scored, scored_on, table, tie_by_weights, withdraw, Dice, Light, Spread};
use furzeladle_tests::judge::{self, Fault, Tables};
use furzeladle_tests::lent;
use furzeladle_tests::model::{self, Opening, Reach, Record, Said};
use furzeladle_tests::places::{near_by_ends, near_by_places};
use std::collections::HashMap;

const CASES: u64 = 120_000;
const TINY: u64 = 8_000;
/// The rules' worked query and its tables.
const QUERY: Query = Query { k: 2, block: 1, radius: 5 };
const FIELD: [i32; 20] = [101, 90, 0, 0, 102, 80, 100, 0, 103, 60, 0, 300, 104, 40, 500, 500, 105, 10, 0, 0];
const TRIM: [i32; 20] = [201, 70, 400, 0, 202, 50, 3, 4, 203, 30, 100, 5, 204, 20, 0, 300, 205, 15, 500, 500];

#[derive(Default, Debug)]
struct Totals {
    pairs: u32,
    ties: u32,
    ties_by_weights: u32,
    largest_sums: u32,
    refusals: HashMap<u32, u32>,
    unharmed: u32,
    at_limit: u32,
    deeper_than_sure: u32,
    withdrawn_read: u32,
    ended_by_withdrawn: u32,
    on_the_new_card: u64,
    decided_by_lightness: u32,
    blocks_near: u32,
    blocks_far: u32,
    near_and_far: u32,
    with_tolerances: u32,
    judged_by_places: u32,
    by_tolerance_alone: u32,
    fewer_surely: u32,
    settled_at_opening: u32,
    near_by_tolerance: u32,
    refused_as_beyond_all: u32,
}

impl Totals {
    fn count(&mut self, said: Said) {
        match said {
            Said::Refused(number) => *self.refusals.entry(number).or_default() += 1,
            _ => self.unharmed += 1,
        }
    }

    /// Every kind of session, answer and refusal was often enough among them.
    fn suffice(&self) {
        for number in [4, 5, 6, 7] {
            assert!(self.refusals[&number] > 5_000, "refusal {number}");
        }
        assert!(self.ties > 100_000 && self.unharmed > 10_000 && self.at_limit > 2_000);
        assert!(self.ties_by_weights > 1_000 && self.largest_sums > 1_000);
        assert!(self.withdrawn_read > 20_000 && self.ended_by_withdrawn > 10_000);
        assert!((CASES * 2 / 5..CASES * 3 / 5).contains(&self.on_the_new_card));
        assert!(self.decided_by_lightness > 5_000);
        assert!(self.blocks_near > 200_000 && self.blocks_far > 200_000 && self.near_and_far > 8_000);
        assert!(self.with_tolerances > 40_000 && self.judged_by_places > 15_000 && self.near_by_tolerance > 20_000);
        assert!(self.by_tolerance_alone > 3_000 && self.fewer_surely > 3_000);
        assert!(self.settled_at_opening > 2_000 && self.refused_as_beyond_all > 500);
    }

    /// Pairs given, those of equal sum, those whose scores alone would not be equal, those of the largest sum.
    fn count_pairs(&mut self, tables: &Tables, given: &[Pair]) {
        let score = |t: &[i32], i: u32| t[tables.wide() * (i as usize - 1) + 1];
        let scores = |p: &Pair| score(tables.field, p.field) + score(tables.trim, p.trim);
        let tied = given.windows(2).filter(|w| w[0].sum == w[1].sum);
        self.pairs += given.len() as u32;
        self.ties += tied.clone().count() as u32;
        self.ties_by_weights += tied.filter(|w| scores(&w[0]) != scores(&w[1])).count() as u32;
        self.largest_sums += given.iter().filter(|p| p.sum == 179_982).count() as u32;
    }

    /// Sessions that read a withdrawn row, and those that finished short of k because of one, rows being unread.
    fn count_withdrawn(&mut self, tables: &Tables, result: &judge::Session) {
        let (depths, (m, n)) = (result.depth, tables.counts());
        let read = |t: &[i32], depth: u32| t.chunks(tables.wide()).take(depth as usize).any(model::withdrawn);
        let some_read = read(tables.field, depths.0) || read(tables.trim, depths.1);
        let short = result.finished && result.given.len() < tables.asked.query.k as usize;
        self.withdrawn_read += u32::from(some_read);
        self.ended_by_withdrawn += u32::from(some_read && short && depths != (m as u32, n as u32));
    }

    /// Sessions on the new card, and those with a pair of rows that L alone keeps apart.
    fn count_card(&mut self, tables: &Tables) {
        let reach = Reach::from(tables.asked);
        let apart = |x: &[i32], y: &[i32]| !reach.near(x, y) && reach.near(&x[..4], &y[..4]);
        let (rows, others) = (tables.field.chunks(tables.wide()), tables.trim.chunks(tables.wide()));
        let decided = rows.clone().any(|x| others.clone().any(|y| apart(x, y)));
        self.on_the_new_card += u64::from(tables.asked.field_card == Card::New);
        self.decided_by_lightness += u32::from(decided);
    }

    /// Block pairs read that are near enough to be joined and those that are too far apart; sessions with both. Those
    /// that only the tolerances bring near enough.
    fn count_blocks(&mut self, tables: &Tables, (p, q): (u32, u32)) {
        let (wide, reach) = (tables.wide(), Reach::from(tables.asked));
        let rows = wide * tables.asked.query.block as usize;
        let (fields, trims) = (&tables.field[..wide * p as usize], &tables.trim[..wide * q as usize]);
        let (mut near, mut far) = (0, 0);
        for x in fields.chunks(rows) {
            for y in trims.chunks(rows) {
                let apart = reach.far_apart(x, y, wide);
                far += u32::from(apart);
                near += u32::from(!apart);
                let known = Reach { tolerance: 0, ..reach };
                self.near_by_tolerance += u32::from(!apart && known.far_apart(x, y, wide));
            }
        }
        self.blocks_near += near;
        self.blocks_far += far;
        self.near_and_far += u32::from(near > 0 && far > 0);
    }

    /// Sessions with tolerances, over tables with rows. Those whose shades were judged by all their places, those that
    /// give a pair which only tolerances let qualify, those that leave one out which would qualify without them, and
    /// those that are settled at opening.
    fn count_tolerances(&mut self, tables: &Tables, given: &[Pair]) {
        let (reach, (m, n)) = (Reach::from(tables.asked), tables.counts());
        if reach.tolerance == 0 || m == 0 || n == 0 {
            return;
        }
        let known = Reach { tolerance: 0, ..reach };
        let gained = |(x, y): (&[i32], &[i32])| !known.near(x, y);
        let lost = |x: &[i32], y: &[i32]| known.near(x, y) && !reach.near(x, y);
        let (rows, others) = (tables.field.chunks(tables.wide()), tables.trim.chunks(tables.wide()));
        let fewer = rows.clone().any(|x| others.clone().any(|y| lost(x, y)));
        self.with_tolerances += 1;
        self.judged_by_places += u32::from(tables.judged_by_places());
        self.by_tolerance_alone += u32::from(given.iter().any(|pair| gained(tables.rows_of(pair))));
        self.fewer_surely += u32::from(fewer && !tables.meets_nothing());
        self.settled_at_opening += u32::from(tables.meets_nothing());
    }
}

fn other_number(dice: &mut Dice, old: u32) -> u32 {
    match dice.below(6) {
        0 => old.wrapping_add(1),
        1 => old.wrapping_sub(1),
        2 => u32::MAX,
        3 => 0,
        4 => dice.below(70),
        _ => dice.below(70_000),
    }
}

/// A call with a record that nobody made, on a copy.
fn damaged_record(dice: &mut Dice, f: &[i32], t: &[i32], session: &Session, totals: &mut Totals) {
    let mut numbers = *session.record();
    for _ in 0..dice.pick(&[1, 1, 2]) {
        let place = match dice.below(10) {
            0 => 204 + dice.below(6),
            1..=3 => dice.below(RECORD_SIZE as u32),
            _ => dice.below(24),
        } as usize;
        numbers[place] = other_number(dice, numbers[place]);
    }
    let mut record = Record::of(&numbers);
    let possible = Record { meaning: 0, ..record.clone() };
    totals.refused_as_beyond_all += u32::from(!model::record_fits(&record) && model::record_fits(&possible));
    let mut session = Session::from_record(numbers);
    show(f, t, &session, &record);
    let said = call(dice.one_in(2), f, t, &mut session, &mut record);
    totals.count(said);
}

/// The same rows with L, or without it.
fn on_the_other_card(t: &[i32], wide: usize) -> Vec<i32> {
    let other = 9 - wide;
    t.chunks(wide).flat_map(|row| row.iter().copied().chain([50]).take(other)).collect()
}

/// A call with a table that is not the session's, on a copy.
fn damaged_table(dice: &mut Dice, f: &[i32], t: &[i32], session: &Session, totals: &mut Totals) {
    let mut tables = [f.to_vec(), t.to_vec()];
    let which = dice.below(2) as usize;
    let wide = model::wide(session.card().unwrap());
    match dice.below(6) {
        0 => tables.swap(0, 1),
        2 if tables[which].len() >= 2 * wide => {
            let row = 1 + dice.below((tables[which].len() / wide) as u32 - 1) as usize;
            tables[which][wide * row + 1] = tables[which][wide * (row - 1) + 1] + 1;
        }
        1 => {
            let new = tables[which].len() as i32 + dice.pick(&[-5, -4, -1, 1, 4, 5]);
            tables[which].resize(new.max(0) as usize, 1);
        }
        3 => tables = tables.map(|t| on_the_other_card(&t, wide)),
        _ => {
            if !tables[which].is_empty() {
                let front = dice.pick(&[8, 24, 1_000_000]).min(tables[which].len() as u32);
                let place = dice.below(front) as usize;
                tables[which][place] = dice.pick(&[-1, 0, 1, 10_000, 10_001, -12_801, 12_701, i32::MIN, i32::MAX]);
            }
        }
    }
    let (mut session, mut record) = (session.clone(), Record::of(session.record()));
    show(&tables[0], &tables[1], &session, &record);
    let said = call(dice.one_in(2), &tables[0], &tables[1], &mut session, &mut record);
    totals.count(said);
}

/// In what order reads and takes come.
#[derive(Clone, Copy)]
enum Order {
    TakeAfterEachRead,
    ReadsThenTakes,
    TakesWhilePossible,
    Random,
}

/// A whole session, to its end or somewhere before it.
fn play(dice: &mut Dice, tables: &Tables, order: Order, totals: &mut Totals) -> judge::Session {
    let (f, t) = (tables.field, tables.trim);
    let (said, mut record) = model::open(tables.asked, f, t);
    assert_eq!(said, Said::Opened);
    let mut session = Session::open(tables.asked, f, t).unwrap();
    assert_eq!(session.record().as_slice(), record.flat());
    let stops_early = dice.one_in(4);
    let mut result = judge::Session::default();
    let (mut is_read, mut last) = (true, Said::Opened);
    loop {
        is_read = match order {
            Order::TakeAfterEachRead => !is_read,
            Order::ReadsThenTakes => !matches!(last, Said::Settled | Said::Given(_)),
            Order::TakesWhilePossible => last == Said::NotYet,
            Order::Random => dice.one_in(2),
        };
        last = call(is_read, f, t, &mut session, &mut record);
        match last {
            Said::Given(pair) => result.given.push(pair),
            Said::Finished => result.finished = true,
            _ => {}
        }
        if dice.one_in(8) {
            damaged_record(dice, f, t, &session, totals);
            damaged_table(dice, f, t, &session, totals);
            show(f, t, &session, &record);
        }
        result.depth = session.depths();
        if result.finished || (stops_early && dice.one_in(20)) {
            return result;
        }
    }
}

/// A query and two tables from a seed.
fn some_tables(dice: &mut Dice) -> (Asked, Vec<i32>, Vec<i32>) {
    let longest = if dice.one_in(100) { 300 } else { dice.pick(&[2, 8, 16, 40]) };
    let card = card(dice);
    let spread = Spread::of(dice, card);
    let other = if dice.one_in(2) { spread } else { Spread::of(dice, card) };
    let (m, n) = (dice.below(longest), dice.below(longest));
    let mut field = table(dice, m, spread);
    let mut trim = table(dice, n, other);
    let asked = asked(dice, card);
    if dice.one_in(4) {
        tie_by_weights(asked, &mut field, &mut trim);
    }
    withdraw(dice, card, &mut field);
    withdraw(dice, card, &mut trim);
    (asked, field, trim)
}

#[test]
fn sessions_beside_the_double_loop() {
    let mut totals = Totals::default();
    for seed in 0..CASES {
        let mut dice = Dice::new(seed + 1);
        let (asked, field, trim) = some_tables(&mut dice);
        let tables = Tables { asked, field: &field, trim: &trim };
        let orders = [Order::TakeAfterEachRead, Order::ReadsThenTakes, Order::TakesWhilePossible, Order::Random];
        let result = play(&mut dice, &tables, orders[seed as usize % 4], &mut totals);
        let sure = tables.least_sure();
        let limit = tables.limit(sure);
        assert_eq!(tables.judge(&result, limit), None, "seed {seed}");
        assert!(!tables.meets_nothing() || result.depth == (0, 0), "seed {seed}");
        totals.count_pairs(&tables, &result.given);
        totals.count_withdrawn(&tables, &result);
        totals.count_card(&tables);
        totals.count_blocks(&tables, result.depth);
        totals.count_tolerances(&tables, &result.given);
        let deepest = result.depth.0.max(result.depth.1);
        totals.at_limit += u32::from(deepest == limit && tables.asked.query.block > 1);
        totals.deeper_than_sure += u32::from(deepest > sure as u32);
    }
    println!("{CASES} sessions: {totals:?}");
    totals.suffice();
}

#[test]
fn openings() {
    let field = vec![1; 20];
    let mut refusals = HashMap::new();
    for seed in 0..8_000 {
        let mut dice = Dice::new(seed + 1);
        let mut query = some_asked(&mut dice);
        if dice.one_in(4) {
            query = query.cards(card(&mut dice), card(&mut dice));
        }
        let (lent, other) = (&field[..some_length(&mut dice)], &field[..some_length(&mut dice)]);
        let (said, record) = model::open(query, lent, other);
        let stood = [dice.below(1_000); RECORD_SIZE];
        let mut again = Session::from_record(stood);
        assert_eq!(again.reopen(query, lent, other).err(), Session::open(query, lent, other).err());
        match Session::open(query, lent, other) {
            Ok(session) => {
                assert_eq!((said, session.record().to_vec()), (Said::Opened, record.flat()));
                assert_eq!(session.card(), Some(query.trim_card));
                assert_eq!(again, session);
            }
            Err(refusal) => {
                assert_eq!((said, record.flat()), (Said::Refused(refusal.number), vec![0; RECORD_SIZE]));
                assert_eq!(again.record(), &stood);
                *refusals.entry(refusal.number).or_insert(0) += 1;
            }
        }
    }
    let query = Query { k: 1, block: 1, radius: 0 };
    let four = Err(Refusal { number: 4, row: 0 });
    assert_eq!(Session::open(query, &vec![0; 4 * 65_536], &field), four);
    assert_eq!(Session::open(query.on(Card::New), &vec![0; 5 * 65_536], &field), four);
    assert!(Session::open(query.on(Card::New), &vec![0; 5 * 65_535], &field).is_ok());
    assert!([1, 2, 3, 12, 16, 4, 15].iter().all(|number| refusals[number] > 20), "{refusals:?}");
    let mut zeros = Session::from_record([0; RECORD_SIZE]);
    let five = Refusal { number: 5, row: 0 };
    assert_eq!(zeros.read(&field, &field), Err(five));
    assert_eq!(zeros.take(&field, &field), Err(five));
}

/// A query now and then out of range.
fn some_asked(dice: &mut Dice) -> Asked {
    let card = card(dice);
    let mut numbers = Opening::from(asked(dice, card)).numbers();
    for _ in 0..dice.below(3) {
        let place = dice.pick(&[0, 1, 2, 3, 4, 7, 8]);
        numbers[place] = dice.pick(&[0, 1, 9, 10, 64, 65, 500, 501, 1_024, 1_025, 40_000, 40_001, u32::MAX]);
    }
    let [k, block, radius, v, w, _, _, t, u, surely] = numbers;
    let asked = Query { k, block, radius }.weights(FieldWeight(v), TrimWeight(w)).on(card);
    let meaning = if surely == 1 { Meaning::Surely } else { Meaning::Possibly };
    asked.tolerating(FieldTolerance(t), TrimTolerance(u), meaning)
}

/// How many numbers are lent: often whole rows on one card or both.
fn some_length(dice: &mut Dice) -> usize {
    let any = dice.below(21) as usize;
    dice.pick(&[0, 4, 5, 8, 10, 15, 16, 20, 20, 20, any])
}

/// Where a row of the tiny tables lies: in a on the old card, in L on the new one.
fn shade_at(card: Card) -> usize {
    if card == Card::New {
        4
    } else {
        2
    }
}

/// Rows that may follow: every score down from the last one, in a few shades.
fn next_rows(card: Card, last: Option<i32>, top: i32, shades: &[i32]) -> Vec<Vec<i32>> {
    let mut scores: Vec<i32> = (0..=top).filter(|s| last.is_none_or(|l| *s <= l)).collect();
    if last.is_none() {
        scores.push(9_999);
    }
    let row = |score: i32, shade: i32| {
        let mut row = vec![0; model::wide(card)];
        (row[0], row[1], row[shade_at(card)]) = (1, score, shade);
        row
    };
    scores.iter().flat_map(|&s| shades.iter().map(move |&x| row(s, x))).collect()
}

/// The table, and with one and two rows more.
fn extensions(card: Card, t: &[i32], ended: bool, top: i32, shades: &[i32], most: usize) -> Vec<Vec<i32>> {
    let mut all = vec![t.to_vec()];
    if ended {
        return all;
    }
    let mut ends = all.clone();
    for _ in 0..most {
        let mut longer = Vec::new();
        for end in &ends {
            let last = end.len().checked_sub(model::wide(card)).map(|at| end[at + 1]);
            for row in next_rows(card, last, top, shades) {
                longer.push([end.as_slice(), &row].concat());
            }
        }
        all.extend(longer.iter().cloned());
        ends = longer;
    }
    all
}

/// Whether all legal tables that begin with these rows have the same list: by extensions, not by the closed form.
fn sure_by_extensions(tables: &Tables, p: usize, q: usize, top: i32, shades: &[i32]) -> bool {
    let (m, n) = tables.counts();
    if m == 0 || n == 0 {
        return true;
    }
    let (wide, card) = (tables.wide(), tables.asked.field_card);
    let (f, t) = (&tables.field[..wide * p], &tables.trim[..wide * q]);
    let list = |f: &[i32], t: &[i32]| {
        let longer = Tables { asked: tables.asked, field: f, trim: t };
        let mut sums: Vec<u32> = longer.pairs(f.len() / wide, t.len() / wide).iter().map(|p| p.sum).collect();
        sums.truncate(tables.asked.query.k as usize);
        sums
    };
    let sums = list(f, t);
    [(2, 1), (1, 2)].iter().all(|&(more, less)| {
        let fields = extensions(card, f, p == m, top, shades, more);
        let trims = extensions(card, t, q == n, top, shades, less);
        fields.iter().all(|x| trims.iter().all(|y| list(x, y) == sums))
    })
}

/// Whether rows of each of two shades are near to rows of each, by all their places.
fn near_shades(asked: Asked, shades: [i32; 2]) -> [[bool; 2]; 2] {
    let row = |shade: i32| {
        let mut row = vec![0; model::wide(asked.field_card)];
        row[shade_at(asked.field_card)] = shade;
        row
    };
    shades.map(|x| shades.map(|y| near_by_places(&asked, &row(x), &row(y))))
}

/// A tiny table from a seed.
fn tiny_table(dice: &mut Dice, card: Card, top: i32, plateau: bool, shades: [i32; 2]) -> Vec<i32> {
    let light = (card == Card::New).then_some(Light { ground: 0, alone: true });
    let spread = Spread { top, step: 1, plateau, shades: 0, extreme: false, drift: 0, light };
    let rows = dice.below(5);
    let mut t = table(dice, rows, spread);
    for row in t.chunks_mut(model::wide(card)) {
        row[shade_at(card)] = dice.pick(&shades);
    }
    withdraw(dice, card, &mut t);
    t
}

/// A query of tiny tables: weights and small tolerances.
fn tiny_asked(dice: &mut Dice, card: Card) -> Asked {
    let query = Query { k: dice.between(1, 3) as u32, block: dice.between(1, 3) as u32, radius: 5 };
    let [v, w] = [(); 2].map(|()| dice.pick(&[1, 1, 1, 2, 3, 9]));
    let [t, u] = if dice.one_in(3) { [0, 0] } else { [(); 2].map(|()| dice.below(3)) };
    let meaning = dice.pick(&[Meaning::Possibly, Meaning::Surely]);
    let asked = query.weights(FieldWeight(v), TrimWeight(w)).on(card);
    asked.tolerating(FieldTolerance(t), TrimTolerance(u), meaning)
}

#[derive(Default, Debug)]
struct TinyTotals {
    readings: u32,
    sure: u32,
    exact: u32,
    gained: u32,
    lost: u32,
    beyond_all: u32,
}

impl TinyTotals {
    /// Every reading of two tables, judged by extensions: the session's depths by each that is sure.
    fn readings(&mut self, tables: &Tables, result: &judge::Session, (top, shades): (i32, [i32; 2]), seed: u64) {
        let ((m, n), mut least) = (tables.counts(), usize::MAX);
        for (p, q) in (0..=m).flat_map(|p| (0..=n).map(move |q| (p, q))) {
            let sure = sure_by_extensions(tables, p, q, top, &shades);
            assert_eq!(sure, tables.sure(p, q), "seed {seed}, reading ({p}, {q})");
            self.readings += 1;
            if sure {
                self.sure += 1;
                least = least.min(p.max(q));
                let limit = tables.limit(p.max(q));
                assert!(result.depth.0 <= limit && result.depth.1 <= limit, "seed {seed}, reading ({p}, {q})");
            }
        }
        assert_eq!(least, tables.least_sure());
        assert_eq!(tables.judge(result, tables.limit(least)), None, "seed {seed}");
        assert!(!tables.meets_nothing() || result.depth == (0, 0), "seed {seed}");
        self.exact += u32::from(result.depth.0.max(result.depth.1) == tables.limit(least));
    }

    /// Whether tolerances make other shades near, fewer, or none: by all places, which the extensions' rows have too.
    fn shades(&mut self, asked: Asked, shades: [i32; 2], seed: u64) {
        let near = near_shades(asked, shades);
        let rows = shades.map(|shade| next_rows(asked.field_card, Some(0), 0, &[shade]).concat());
        let by_ends = [0, 1].map(|i| [0, 1].map(|j| near_by_ends(&asked, &rows[i], &rows[j])));
        assert_eq!(near, by_ends, "seed {seed}");
        let known = near_shades(asked.possibly(FieldTolerance(0), TrimTolerance(0)), shades);
        let beyond_all = near == [[false; 2]; 2];
        self.gained += u32::from(!known[0][1] && near[0][1]);
        self.lost += u32::from(known[0][1] && !near[0][1] && !beyond_all);
        self.beyond_all += u32::from(beyond_all);
    }
}

#[test]
fn tiny_tables_against_every_sure_reading() {
    let mut totals = TinyTotals::default();
    for seed in 0..TINY {
        let mut dice = Dice::new(seed + 1_000_001);
        let (top, card) = (dice.between(1, 2), card(&mut dice));
        let (shades, plateau) = (dice.pick(&[[0, 7], [0, 3], [0, 2]]), dice.one_in(3));
        let [field, trim] = [(); 2].map(|()| tiny_table(&mut dice, card, top, plateau, shades));
        let tables = Tables { asked: tiny_asked(&mut dice, card), field: &field, trim: &trim };
        let result = play(&mut dice, &tables, Order::Random, &mut Totals::default());
        totals.readings(&tables, &result, (top, shades), seed);
        totals.shades(tables.asked, shades, seed);
    }
    println!("{TINY} tiny sessions: {totals:?}");
    assert!(totals.sure > 20_000 && totals.readings - totals.sure > 20_000 && totals.exact > 2_000);
    assert!(totals.gained > 400 && totals.lost > 400 && totals.beyond_all > 400);
}

/// The judge first gets one wrong session of each kind.
#[test]
fn the_judge_reports_wrong_sessions() {
    let field = [1, 9, 0, 0, 2, 8, 0, 0, 3, 1, 50, 0];
    let trim = [1, 7, 0, 0, 2, 5, 0, 0, 3, 2, 50, 0];
    let query = Query { k: 3, block: 2, radius: 5 };
    let tables = Tables { asked: query.into(), field: &field, trim: &trim };
    let pair = |sum, field, trim| Pair { sum, field, trim };
    let right = vec![pair(16, 1, 1), pair(15, 2, 1), pair(14, 1, 2)];
    let session = |given: &[Pair], finished, depth| judge::Session { given: given.to_vec(), finished, depth };
    let fault = |s: judge::Session| tables.judge(&s, 3);
    assert_eq!(fault(session(&right, true, (2, 3))), None);
    assert_eq!(fault(session(&right[..1], false, (2, 2))), None);
    let wrong = [
        (session(&[pair(16, 0, 1)], false, (2, 2)), Fault::NoSuchRow),
        (session(&[pair(16, 4, 1)], false, (2, 2)), Fault::NoSuchRow),
        (session(&[pair(11, 1, 3)], false, (2, 2)), Fault::FarApart),
        (session(&[pair(17, 1, 1)], false, (2, 2)), Fault::WrongSum),
        (session(&[right[0], right[0]], false, (2, 2)), Fault::Repeated),
        (session(&[right[1], right[0], right[2]], true, (2, 2)), Fault::BetterLeft),
        (session(&right[1..], false, (2, 2)), Fault::BetterLeft),
        (session(&right[..2], true, (2, 2)), Fault::FinishedEarly),
        (session(&[], true, (2, 2)), Fault::FinishedEarly),
        (session(&right, true, (4, 2)), Fault::TooDeep),
        (session(&right, true, (2, 4)), Fault::TooDeep),
    ];
    for (session, wanted) in wrong {
        assert_eq!(fault(session), Some(wanted));
    }
    let mut shorter = trim;
    shorter[5] = 0;
    shorter[9] = 0;
    let withdrawn = Tables { trim: &shorter, ..tables };
    assert_eq!(withdrawn.judge(&session(&right[..2], true, (2, 2)), 3), None);
    assert_eq!(withdrawn.judge(&session(&right, true, (2, 2)), 3), Some(Fault::Withdrawn));
    assert_eq!(withdrawn.judge(&session(&right[..1], true, (2, 2)), 3), Some(Fault::FinishedEarly));
    let tables = Tables { asked: query.weights(FieldWeight(1), TrimWeight(3)), ..tables };
    let weighted = [pair(30, 1, 1), pair(29, 2, 1), pair(24, 1, 2)];
    assert_eq!(tables.judge(&session(&weighted, true, (2, 3)), 3), None);
    assert_eq!(tables.judge(&session(&right, true, (2, 3)), 3), Some(Fault::WrongSum));
    let (light, dark) = ([1, 9, 0, 0, 6, 2, 8, 0, 0, 0], [1, 7, 0, 0, 0]);
    let tables = Tables { asked: query.on(Card::New), field: &light, trim: &dark };
    assert_eq!(tables.judge(&session(&[pair(15, 2, 1)], true, (2, 1)), 3), None);
    assert_eq!(tables.judge(&session(&[pair(16, 1, 1)], true, (2, 1)), 3), Some(Fault::FarApart));
}

/// The same with tolerances: rows that lie 5 apart, and 6.
#[test]
fn the_judge_minds_tolerances() {
    let (field, trim) = ([1, 9, 0, 0, 2, 8, 0, 1], [1, 7, 0, 6]);
    let query = Query { k: 2, block: 1, radius: 5 };
    let pairs = [Pair { sum: 16, field: 1, trim: 1 }, Pair { sum: 15, field: 2, trim: 1 }];
    let session = |given: &[Pair], depth| judge::Session { given: given.to_vec(), finished: true, depth };
    let tables = |asked: Asked| Tables { asked, field: &field, trim: &trim };
    let fault = |asked: Asked, session: judge::Session, limit| tables(asked).judge(&session, limit);
    let (none, one) = (FieldTolerance(0), TrimTolerance(1));
    let known = query.possibly(none, TrimTolerance(0));
    assert_eq!(fault(known, session(&pairs[1..], (2, 1)), 2), None);
    assert_eq!(fault(known, session(&pairs, (2, 1)), 2), Some(Fault::FarApart));
    assert_eq!(fault(query.possibly(none, one), session(&pairs, (2, 1)), 2), None);
    assert_eq!(fault(query.possibly(none, one), session(&pairs[1..], (2, 1)), 2), Some(Fault::BetterLeft));
    assert_eq!(fault(query.possibly(none, one), session(&pairs[..1], (2, 1)), 2), Some(Fault::FinishedEarly));
    assert_eq!(fault(query.surely(none, one), session(&[], (2, 1)), 2), None);
    assert_eq!(fault(query.surely(none, one), session(&pairs[1..], (2, 1)), 2), Some(Fault::FarApart));
    // equal places may lie 4 and 4 apart: nothing is read
    let beyond = query.surely(FieldTolerance(3), one);
    let sure = |asked: Asked| tables(asked).least_sure();
    assert_eq!((sure(beyond), sure(query.surely(none, one)), sure(known)), (0, 2, 2));
    assert_eq!(fault(beyond, session(&[], (0, 0)), 0), None);
    assert_eq!(fault(beyond, session(&[], (1, 0)), 0), Some(Fault::TooDeep));
}

#[test]
fn the_worked_query() {
    let (field, trim) = (FIELD, TRIM);
    let mut s = Session::open(QUERY, &field, &trim).unwrap();
    while s.read(&field, &trim).unwrap() == Progress::Read {}
    assert_eq!(s.take(&field, &trim), Ok(Taken::Given(Pair { sum: 140, field: 1, trim: 2 })));
    assert_eq!(s.take(&field, &trim), Ok(Taken::Given(Pair { sum: 110, field: 2, trim: 3 })));
    assert_eq!(s.take(&field, &trim), Ok(Taken::Finished));
    assert_eq!((s.depths(), s.joined()), ((4, 4), 2));
}

/// Openings that are refused in the middle of a session: it goes on as if they had not been called.
#[test]
fn a_live_record_survives_a_refused_opening() {
    let (field, trim) = (FIELD, TRIM);
    let query = QUERY;
    let mut s = Session::open(query, &field, &trim).unwrap();
    while s.read(&field, &trim).unwrap() == Progress::Read {}
    let before = s.clone();
    let refused = |number| Err(Refusal { number, row: 0 });
    assert_eq!(s.reopen(Query { k: 0, ..query }, &field, &trim), refused(1));
    assert_eq!(s.reopen(Query { block: 0, ..query }, &field, &trim), refused(2));
    assert_eq!(s.reopen(Query { radius: 40_001, ..query }, &field, &trim), refused(3));
    assert_eq!(s.reopen(weights(10, 1), &field, &trim), refused(12));
    assert_eq!(s.reopen(query.surely(FieldTolerance(0), TrimTolerance(501)), &field, &trim), refused(16));
    assert_eq!(s.reopen(query, &field[..19], &trim), refused(4));
    assert_eq!(s, before);
    assert_eq!(s.take(&field, &trim), Ok(Taken::Given(Pair { sum: 140, field: 1, trim: 2 })));
    assert_eq!(s.reopen(query, &field, &trim), Ok(()));
    assert_eq!(s.depths(), (0, 0));
}

/// The worked query at other weights.
fn weights(field: u32, trim: u32) -> Asked {
    QUERY.weights(FieldWeight(field), TrimWeight(trim))
}

/// The worked query's sums, depths and block pairs joined at these weights.
fn worked(field: u32, trim: u32) -> (Vec<u32>, (u32, u32), u64) {
    let mut s = Session::open(weights(field, trim), &FIELD, &TRIM).unwrap();
    while s.read(&FIELD, &TRIM).unwrap() == Progress::Read {}
    let mut sums = Vec::new();
    while let Ok(Taken::Given(pair)) = s.take(&FIELD, &TRIM) {
        sums.push(pair.sum);
    }
    (sums, s.depths(), s.joined())
}

#[test]
fn the_worked_query_at_other_weights() {
    assert_eq!(worked(1, 1), (vec![140, 110], (4, 4), 2));
    assert_eq!(worked(3, 1), (vec![320, 270], (3, 5), 2));
    assert_eq!(worked(1, 3), (vec![240, 170], (5, 4), 3));
    assert_eq!(worked(9, 9), (vec![1_260, 990], (4, 4), 2));
}

/// 12 comes after 3 and before 4, whichever weight it is.
#[test]
fn weights_outside_their_range() {
    let refused = |number| Err(Refusal { number, row: 0 });
    for (field, trim) in [(0, 1), (1, 0), (10, 1), (1, 10), (0, 0), (u32::MAX, 9), (9, u32::MAX)] {
        let asked = weights(field, trim);
        assert_eq!(Session::open(asked, &FIELD, &TRIM), refused(12));
        assert_eq!(Session::open(asked, &FIELD[..19], &TRIM[..19]), refused(12));
        let far = Query { radius: 40_001, ..QUERY }.weights(FieldWeight(field), TrimWeight(trim));
        assert_eq!(Session::open(far, &FIELD, &TRIM), refused(3));
    }
    assert_eq!(Session::open(weights(9, 9), &FIELD[..19], &TRIM), refused(4));
    assert!(Session::open(weights(9, 9), &FIELD, &TRIM).is_ok());
    let said = Refusal { number: 12, row: 0 };
    assert_eq!((said.word(), said.meaning()), ("weight", "a weight outside 1 to 9"));
}

/// A read and a take of a record: the refusal of both, or none.
fn refusal(record: &[u32; RECORD_SIZE]) -> Option<u32> {
    let read = Session::from_record(*record).read(&FIELD, &TRIM).err();
    let taken = Session::from_record(*record).take(&FIELD, &TRIM).err();
    assert_eq!(read, taken);
    read.map(|refusal| refusal.number)
}

#[test]
fn records_with_weights_outside_their_range() {
    let mut s = Session::open(weights(2, 3), &FIELD, &TRIM).unwrap();
    for _ in 0..5 {
        assert_eq!(s.read(&FIELD, &TRIM), Ok(Progress::Read));
    }
    assert_eq!(s.record()[204..], [2, 3, 2, 0, 0, 0]);
    for place in [204, 205] {
        for (weight, wanted) in [(0, Some(5)), (1, None), (9, None), (10, Some(5)), (u32::MAX, Some(5))] {
            let mut record = *s.record();
            record[place] = weight;
            assert_eq!(refusal(&record), wanted, "weight {weight} at {place}");
        }
    }
}

/// The largest held sum is the same in every record, whatever its weights.
#[test]
fn held_sums_up_to_the_largest() {
    for (field, trim) in [(1, 1), (1, 9), (9, 9)] {
        let mut s = Session::open(weights(field, trim), &FIELD, &TRIM).unwrap();
        while s.read(&FIELD, &TRIM).unwrap() == Progress::Read {}
        for (sum, wanted) in [(19_999, None), (20_000, None), (179_982, None), (179_983, Some(5))] {
            let mut record = *s.record();
            record[12] = sum;
            assert_eq!(refusal(&record), wanted, "sum {sum} at weights {field} and {trim}");
        }
        let mut record = *s.record();
        record[12] = 179_982;
        let given = Taken::Given(Pair { sum: 179_982, field: record[13], trim: record[14] });
        assert_eq!(Session::from_record(record).take(&FIELD, &TRIM), Ok(given));
    }
}

/// The first 204 numbers of a record are those from before there were weights: with 1, 1, the old card and three zeros
/// behind them it goes on. The first 206 are those from before there were cards.
#[test]
fn a_record_without_weights_goes_on() {
    let mut s = Session::open(QUERY, &FIELD, &TRIM).unwrap();
    for _ in 0..5 {
        assert_eq!(s.read(&FIELD, &TRIM), Ok(Progress::Read));
    }
    let mut stored = [0; RECORD_SIZE];
    stored[..204].copy_from_slice(&s.record()[..204]);
    assert_eq!(refusal(&stored), Some(5));
    stored[204..206].copy_from_slice(&[1, 1]);
    assert_eq!(refusal(&stored), Some(5));
    stored[206] = 2;
    assert_eq!(Session::from_record(stored), s);
}

/// A weight that is not lent is 1, a kind that is not lent 1 or 2, a tolerance and the meaning 0; numbers behind the
/// meaning are not looked at.
#[test]
fn openings_by_fewer_numbers() {
    let opened = |numbers: &[u32]| lent::answers(numbers, &FIELD, &TRIM).opened;
    assert_eq!(opened(&[2, 1, 5]), opened(&[2, 1, 5, 1, 1]));
    assert_eq!(opened(&[2, 1, 5]), opened(&[2, 1, 5, 1, 1, 1, 2]));
    assert_eq!(opened(&[2, 1, 5, 7]), opened(&[2, 1, 5, 7, 1]));
    assert_eq!(opened(&[2, 1, 5, 7, 3, 1]), opened(&[2, 1, 5, 7, 3]));
    assert_eq!(opened(&[2, 1, 5, 7, 3, 1, 2, 0, 0, 0, 9]), opened(&[2, 1, 5, 7, 3]));
    assert_eq!(opened(&[2, 1, 5, 7, 3, 3, 4, 0]), opened(&[2, 1, 5, 7, 3, 3, 4]));
    assert_eq!(opened(&[2, 1, 5, 7, 3, 3, 4, 6, 0, 0]), opened(&[2, 1, 5, 7, 3, 3, 4, 6]));
    assert_eq!(opened(&[2, 1, 5, 7, 3, 3, 4, 6, 8, 0]), opened(&[2, 1, 5, 7, 3, 3, 4, 6, 8]));
    assert_eq!(opened(&[2, 1, 5, 7, 3, 3]), (-15, [7; RECORD_SIZE]));
    assert_eq!(opened(&[2, 1, 5, 7, 3]).1.as_slice(), Session::open(weights(7, 3), &FIELD, &TRIM).unwrap().record());
    assert_eq!(opened(&[2, 1]), (-11, [7; RECORD_SIZE]));
    for numbers in [&[2, 1, 5, 0][..], &[2, 1, 5, 10], &[2, 1, 5, 1, 0], &[2, 1, 5, 1, 10]] {
        assert_eq!(opened(numbers), (-12, [7; RECORD_SIZE]));
    }
}

/// A query over rows in one shade.
fn over(k: u32, block: u32) -> Query {
    Query { k, block, radius: 0 }
}

#[test]
fn withdrawn_rows_by_hand() {
    for (i, card) in (0..WITHDRAWN.len()).flat_map(|i| [(i, Card::Old), (i, Card::New)]) {
        let case = &WITHDRAWN[i];
        let (f, t) = (scored_on(card, case.field), scored_on(card, case.trim));
        let (_, mut record) = model::open(case.query().on(card), &f, &t);
        let mut s = Session::open(case.query().on(card), &f, &t).unwrap();
        while call(true, &f, &t, &mut s, &mut record) == Said::Read {}
        let mut sums = Vec::new();
        while let Said::Given(pair) = call(false, &f, &t, &mut s, &mut record) {
            sums.push(pair.sum);
        }
        assert_eq!((sums.as_slice(), s.depths(), s.joined()), (case.sums, case.depths, case.joined), "case {i}");
        assert_eq!(s.take(&f, &t), Ok(Taken::Finished), "case {i}");
    }
}

/// Straight after opening a field table that begins with 0 is not empty yet: one block is read, and no trim.
#[test]
fn a_withdrawn_first_field_row() {
    let (f, t) = (scored(&[0, 0, 0]), scored(&[7, 6]));
    let mut s = Session::open(over(2, 2), &f, &t).unwrap();
    assert_eq!(s.take(&f, &t), Ok(Taken::NotYet));
    assert_eq!(s.read(&f, &t), Ok(Progress::Read));
    assert_eq!((s.depths(), s.joined()), ((2, 0), 0));
    assert_eq!(s.show(&f, &t), Some((Table::Field, 1, &f[..8])));
    assert_eq!(s.read(&f, &t), Ok(Progress::Settled));
    assert_eq!(s.take(&f, &t), Ok(Taken::Finished));
    let mut s = Session::open(over(2, 2), &f, &[]).unwrap();
    assert_eq!(s.take(&f, &[]), Ok(Taken::Finished));
    assert_eq!(s.read(&f, &[]), Ok(Progress::Settled));
}

/// A reading may be sure because of a withdrawn row, if it contains it.
#[test]
fn sure_readings_by_hand() {
    let sure = |field: &[i32], trim: &[i32], p, q| {
        let (field, trim) = (scored(field), scored(trim));
        Tables { asked: over(2, 1).into(), field: &field, trim: &trim }.sure(p, q)
    };
    let (gone, live) = ([0, 0], [7, 6]);
    assert!(!sure(&gone, &live, 0, 0) && sure(&gone, &live, 1, 0) && !sure(&gone, &live, 0, 1));
    assert!(!sure(&live, &gone, 0, 0) && sure(&live, &gone, 0, 1) && !sure(&live, &gone, 2, 0));
    assert!(!sure(&gone, &gone, 0, 0) && sure(&gone, &gone, 1, 0) && sure(&gone, &gone, 0, 1));
    assert!(sure(&gone, &[], 0, 0) && sure(&[], &live, 0, 0));
    let ends = [9, 0, 0];
    assert!(!sure(&ends, &ends, 1, 1) && !sure(&ends, &ends, 2, 1) && sure(&ends, &ends, 2, 2));
    assert!(!sure(&ends, &live, 1, 2) && sure(&ends, &live, 2, 2) && !sure(&ends, &[7, 6, 6], 2, 1));
}

/// Where nothing can qualify every reading is sure, also of no rows; where something can, those of no rows are not.
#[test]
fn sure_readings_where_nothing_qualifies() {
    let (field, trim) = (scored(&[9, 8]), scored(&[7, 6]));
    let readings = |asked: Asked| {
        let tables = Tables { asked, field: &field, trim: &trim };
        (0..9).map(|i| tables.sure(i / 3, i % 3)).collect::<Vec<_>>()
    };
    let query = Query { k: 1, block: 1, radius: 8 };
    let (five, six) = ((FieldTolerance(2), TrimTolerance(3)), (FieldTolerance(3), TrimTolerance(3)));
    assert_eq!(readings(query.surely(six.0, six.1)), [true; 9]);
    for asked in [query.surely(five.0, five.1), query.possibly(six.0, six.1), query.into()] {
        assert_eq!(readings(asked), [false, false, false, false, true, true, false, true, true]);
    }
}

/// The rows behind a withdrawn one are checked with their block, those of later blocks are not.
#[test]
fn rows_behind_a_withdrawn_one() {
    let mut f = scored(&[9, 0, 0, 0]);
    let t = scored(&[7]);
    for (place, number, wanted) in [(9, 1, 7), (10, 12_701, 6), (8, 0, 6)] {
        let right = std::mem::replace(&mut f[place], number);
        let refused = Err(Refusal { number: wanted, row: 0 });
        assert_eq!(Session::open(over(2, 3), &f, &t).unwrap().read(&f, &t), refused);
        let mut s = Session::open(over(2, 2), &f, &t).unwrap();
        while s.read(&f, &t).unwrap() == Progress::Read {}
        assert_eq!(s.depths(), (2, 1));
        f[place] = right;
    }
}

/// A record that no session made: rows of both tables read, these pairs held.
fn forged(query: Query, f: &[i32], t: &[i32], depth: [u32; 2], held: &[Pair]) -> Record {
    let (_, mut record) = model::open(query, f, t);
    record.depth = depth;
    record.last = 1;
    record.held = held.len() as u32;
    record.places[..held.len()].copy_from_slice(held);
    record
}

/// Held pairs are believed: over a table that counts as empty a secured one comes out before the session is finished. A
/// table that is read out has no part in the ceiling, so that here it is 0 + 7, and 7 + 0.
#[test]
fn held_pairs_over_a_table_that_counts_as_empty() {
    let (gone, live) = (scored(&[0, 0]), scored(&[7, 5]));
    let pair = |sum| Pair { sum, field: 1, trim: 1 };
    let (read, take) = (true, false);
    for (f, t) in [(&gone, &live), (&live, &gone)] {
        let held = |pairs: &[Pair]| forged(over(3, 1), f, t, [1, 1], pairs);
        let secured = answers(&held(&[pair(7)]), f, t, &[read, take, read, take]);
        assert_eq!(secured, (vec![Said::Settled, Said::Given(pair(7)), Said::Settled, Said::Finished], 0));
        let unsecured = answers(&held(&[pair(6)]), f, t, &[read, take]);
        assert_eq!(unsecured, (vec![Said::Settled, Said::Finished], 1));
        let both = answers(&held(&[pair(8), pair(6), pair(0)]), f, t, &[take, take, read]);
        assert_eq!(both, (vec![Said::Given(pair(8)), Said::Finished, Said::Settled], 2));
    }
    let both_read_out = forged(over(3, 1), &gone, &gone, [1, 1], &[pair(1), pair(0)]);
    let given = vec![Said::Settled, Said::Given(pair(1)), Said::Given(pair(0)), Said::Finished];
    assert_eq!(answers(&both_read_out, &gone, &gone, &[read, take, take, take]), (given, 0));
}

/// A depth below a withdrawn row, which no session reaches by blocks of one row, is believed: the table is read out.
#[test]
fn a_forged_depth_beyond_a_withdrawn_row() {
    let (f, t) = (scored(&[9, 0, 0, 0]), scored(&[7, 6, 0, 0]));
    let pair = Pair { sum: 15, field: 1, trim: 2 };
    let (read, take) = (true, false);
    let field_beyond = forged(over(2, 1), &f, &t, [3, 1], &[]);
    let said = answers(&field_beyond, &f, &t, &[take, read, take, read, read, take]);
    let wanted = vec![Said::NotYet, Said::Read, Said::Given(pair), Said::Read, Said::Settled, Said::Finished];
    assert_eq!(said, (wanted, 0));
    let both_beyond = forged(over(2, 1), &f, &t, [4, 3], &[pair]);
    let said = answers(&both_beyond, &f, &t, &[read, take, take]);
    assert_eq!(said, (vec![Said::Settled, Said::Given(pair), Said::Finished], 0));
    let mut disordered = f.clone();
    disordered[9] = 1;
    let said = answers(&field_beyond, &disordered, &t, &[read, take]);
    assert_eq!(said, (vec![Said::Refused(7); 2], 0));
}

/// A depth that a record may have: some blocks, or all rows.
fn some_depth(dice: &mut Dice, block: u32, t: &[i32]) -> u32 {
    let rows = t.len() as u32 / 4;
    (block * dice.below(rows / block + 2)).min(rows)
}

/// Pairs of rows read, in rank; their sums are anything up to a little above the first rows' sum.
fn some_held(dice: &mut Dice, most: u32, depth: [u32; 2], highest: u32) -> Vec<Pair> {
    if depth.contains(&0) {
        return Vec::new();
    }
    let some = |dice: &mut Dice| Pair {
        sum: dice.below(highest + 3),
        field: 1 + dice.below(depth[0]),
        trim: 1 + dice.below(depth[1]),
    };
    let mut held: Vec<Pair> = (0..dice.below(most + 1)).map(|_| some(dice)).collect();
    held.sort_by_key(model::rank);
    held.dedup();
    held
}

#[test]
fn forged_records_over_withdrawn_rows() {
    let (mut given, mut finished_holding, mut read) = (0, 0, 0);
    for seed in 0..40_000 {
        let mut dice = Dice::new(seed + 4_000_001);
        let spread = Spread { top: 9, step: 1, plateau: false, shades: 1, extreme: false, drift: 0, light: None };
        let [f, t] = [(); 2].map(|()| {
            let rows = 1 + dice.below(8);
            let mut t = table(&mut dice, rows, spread);
            withdraw(&mut dice, Card::Old, &mut t);
            t
        });
        let query = Query { k: 1 + dice.below(4), block: 1 + dice.below(3), radius: 1 };
        let depth = [&f, &t].map(|t| some_depth(&mut dice, query.block, t));
        let held = some_held(&mut dice, query.k, depth, (f[1] + t[1]) as u32);
        let mut record = forged(query, &f, &t, depth, &held);
        record.out = dice.below(query.k - record.held + 1);
        record.last = u32::from(depth != [0, 0]) + u32::from(depth[0] == 0 && depth[1] > 0);
        let empty = (depth[0] > 0 && f[1] == 0) || (depth[1] > 0 && t[1] == 0);
        let (said, left) = answers(&record, &f, &t, &[true, false, false]);
        assert!(!matches!(said[0], Said::Refused(_)), "seed {seed}");
        assert!(!empty || said[0] == Said::Settled, "seed {seed}");
        given += u32::from(empty && matches!(said[1], Said::Given(_)));
        finished_holding += u32::from(empty && said[1] == Said::Finished && left > 0);
        read += u32::from(said[0] == Said::Read);
    }
    println!("forged: {given} given over an empty table, {finished_holding} finished holding pairs, {read} read on");
    assert!(given > 1_000 && finished_holding > 400 && read > 10_000);
}

/// A session of a query over two tables, to its end: its pairs.
fn paired(asked: Asked, f: &[i32], t: &[i32]) -> Vec<Pair> {
    run(asked, f, t).0
}

/// Rows at one a and b: L from end to end of its range, and a distance that it makes alone.
#[test]
fn lightness_decides() {
    let f = [1, 9, 3, 4, 0, 2, 8, 3, 4, 10_000];
    let t = [1, 7, 3, 4, 10_000, 2, 5, 3, 4, 5];
    let within = |radius| {
        let pairs = paired(Query { k: 4, block: 1, radius }.on(Card::New), &f, &t);
        pairs.iter().map(|pair| (pair.field, pair.trim)).collect::<Vec<_>>()
    };
    assert_eq!(within(0), [(2, 1)]);
    assert_eq!(within(4), [(2, 1)]);
    assert_eq!(within(5), [(2, 1), (1, 2)]);
    assert_eq!(within(9_994), [(2, 1), (1, 2)]);
    assert_eq!(within(9_995), [(2, 1), (1, 2), (2, 2)]);
    assert_eq!(within(9_999), [(2, 1), (1, 2), (2, 2)]);
    assert_eq!(within(10_000), [(1, 1), (2, 1), (1, 2), (2, 2)]);
}

/// 2, 3 and 6 make 7: each of the three coordinates counts.
#[test]
fn distance_over_three_coordinates() {
    let f = [1, 9, 0, 0, 50];
    for [a, b, l] in [[2, 3, 6], [3, -6, 2], [-6, 2, -3], [7, 0, 0], [0, -7, 0], [0, 0, 7], [0, 0, -7]] {
        let t = [1, 7, a, b, 50 + l];
        for (radius, pairs) in [(7, 1), (6, 0)] {
            assert_eq!(paired(Query { k: 1, block: 1, radius }.on(Card::New), &f, &t).len(), pairs, "{a} {b} {l}");
        }
    }
}

/// L outside 0 to 10,000 is 6, before 7, in a read; a session refuses it of rows read before as well.
#[test]
fn lightness_outside_its_range() {
    let (f, t) = ([1, 9, 0, 0, 0, 2, 8, 0, 0, 10_000], [1, 7, 0, 0, 5_000]);
    let asked = over(2, 1).on(Card::New);
    for (place, lightness, wanted) in [(4, -1, 6), (4, 10_001, 6), (9, -1, 6), (9, i32::MAX, 6), (4, i32::MIN, 6)] {
        let mut bad = f;
        bad[place] = lightness;
        bad[6] = if place == 9 { 10 } else { 8 };
        let mut s = Session::open(asked, &bad, &t).unwrap();
        let refused = (0..9).find_map(|_| s.read(&bad, &t).err()).unwrap();
        assert_eq!(refused.number, wanted, "{lightness}");
        let mut s = Session::open(asked, &f, &t).unwrap();
        while s.read(&f, &t).unwrap() == Progress::Read {}
        assert_eq!(s.take(&bad, &t).err().map(|refusal| refusal.number), Some(6), "{lightness}");
    }
}

/// Twenty numbers are five rows on the old card and four on the new one: what is opened says which.
#[test]
fn twenty_numbers() {
    let numbers: Vec<i32> = [1, 5, 0, 0].into_iter().cycle().take(20).collect();
    let opened = |card| Session::open(over(1, 1).on(card), &numbers, &numbers).unwrap();
    let (mut old, mut new) = (opened(Card::Old), opened(Card::New));
    assert_eq!((old.card(), &old.record()[3..5]), (Some(Card::Old), &[5, 5][..]));
    assert_eq!((new.card(), &new.record()[3..5]), (Some(Card::New), &[4, 4][..]));
    assert_eq!(old.read(&numbers, &numbers), Ok(Progress::Read));
    assert_eq!(old.show(&numbers, &numbers), Some((Table::Field, 1, &numbers[..4])));
    assert_eq!(new.read(&numbers, &numbers), Ok(Progress::Read));
    assert_eq!(new.show(&numbers, &numbers), Some((Table::Field, 1, &numbers[..5])));
    // the other card in the record: the row counts no longer are those of opening
    for (session, other) in [(&old, 3), (&new, 2)] {
        let mut record = *session.record();
        record[206] = other;
        let mut turned = Session::from_record(record);
        assert_eq!(turned.read(&numbers, &numbers), Err(Refusal { number: 4, row: 0 }));
        assert_eq!(turned.show(&numbers, &numbers), None);
    }
}

/// 15 of two cards comes after 4, also where a table is empty, and each table is counted on its own card.
#[test]
fn tables_on_different_cards() {
    let numbers = [1; 40];
    let refusal = |field: Card, trim: Card, m: usize, n: usize| {
        let asked = over(1, 1).weights(FieldWeight(1), TrimWeight(1)).cards(field, trim);
        Session::open(asked, &numbers[..m], &numbers[..n]).err().map(|refusal| refusal.number)
    };
    for (m, n, wanted) in
        [(0, 0, 15), (0, 5, 15), (4, 0, 15), (20, 20, 15), (4, 5, 15), (5, 5, 4), (4, 4, 4), (5, 4, 4)]
    {
        assert_eq!(refusal(Card::Old, Card::New, m, n), Some(wanted), "{m}, {n}");
        assert_eq!(refusal(Card::New, Card::Old, n, m), Some(wanted), "{n}, {m}");
    }
    assert_eq!(refusal(Card::New, Card::New, 0, 5), None);
    assert_eq!(refusal(Card::New, Card::New, 4, 5), Some(4));
    assert_eq!(refusal(Card::Old, Card::Old, 20, 5), Some(4));
    let said = Refusal { number: 15, row: 0 };
    assert_eq!((said.word(), said.meaning()), ("cards", "the two tables are on different cards"));
}

/// Kinds out of their place are 10, after 12 and before 4; all of it as the model has it.
#[test]
fn kinds_out_of_their_place() {
    let numbers = [1; 20];
    let kinds = [0, 1, 2, 3, 4, 5, 6, 257, u32::MAX];
    let (mut tens, mut opened) = (0, 0);
    for (field, trim) in kinds.iter().flat_map(|&field| kinds.map(|trim| (field, trim))) {
        for (weight, m, n) in [(1, 20, 20), (1, 19, 20), (1, 20, 19), (1, 4, 5), (1, 0, 0), (10, 20, 20)] {
            let query = [1, 1, 0, weight, 1, field, trim];
            let answer = beside::opened(&query, &numbers[..m], &numbers[..n]);
            tens += u32::from(answer == -10);
            opened += u32::from(answer == 0);
        }
    }
    assert_eq!((tens, opened), (5 * (81 - 4), 2 * 2));
    // a field kind alone: the trim table stays on the old card
    for (field, wanted) in [(0, -10), (1, 0), (2, -10), (3, -15), (4, -10)] {
        assert_eq!(lent::answers(&[1, 1, 0, 1, 1, field], &numbers, &numbers).opened.0, wanted);
    }
}

/// A record's card is 2 or 3: another is 5, by read, take and show.
#[test]
fn records_on_other_cards() {
    let f = [1, 9, 0, 0, 0, 2, 8, 0, 0, 9, 3, 8, 0, 0, 9, 4, 8, 0, 0, 9];
    let mut s = Session::open(over(2, 1).on(Card::New), &f, &f).unwrap();
    assert_eq!(s.read(&f, &f), Ok(Progress::Read));
    assert_eq!(s.record()[206], 3);
    for card in [0, 1, 4, 5, 257, 258, u32::MAX, 1 << 31 | 3] {
        let mut record = *s.record();
        record[206] = card;
        let mut bad = Session::from_record(record);
        let five = Refusal { number: 5, row: 0 };
        assert_eq!((bad.read(&f, &f), bad.take(&f, &f)), (Err(five), Err(five)), "card {card}");
        assert_eq!((bad.show(&f, &f), bad.card()), (None, None), "card {card}");
        assert_eq!(bad.record(), &record);
    }
}

/// Tables that know their card, from files.
#[test]
fn rows_that_know_their_card() {
    let file = |kind: u32| furzeladle_tests::file(kind, &[[1, 9, 0, 0, 0], [2, 8, 0, 0, 10_000]]);
    let old = |kind: u32| furzeladle_tests::file(kind, &[[1, 9, 0, 0], [2, 8, 0, 0]]);
    let field = Rows::read(&file(3), Table::Field, Card::New).unwrap();
    let plain = Rows::read(&old(2), Table::Trim, Card::Old).unwrap();
    assert_eq!((field.card(), field.count(), field.numbers().len()), (Card::New, 2, 10));
    assert_eq!((plain.card(), plain.count(), plain.numbers().len()), (Card::Old, 2, 8));
    let refused = |bytes: &[u8], table, card| Rows::read(bytes, table, card).unwrap_err();
    assert_eq!(refused(&file(3), Table::Trim, Card::New).number, 10);
    assert_eq!(refused(&file(3), Table::Field, Card::Old).number, 10);
    assert_eq!(refused(&old(3), Table::Field, Card::New).number, 8);
    assert_eq!(refused(b"", Table::Field, Card::New).number, 8);
    let falling = furzeladle_tests::file(3, &[[1, 8, 0, 0, 0], [2, 9, 0, 0, 0]]);
    assert_eq!(refused(&falling, Table::Field, Card::New), Refusal { number: 7, row: 2 });
}
