//! Sessions over checked tables beside those over plain slices: the same answers and records, pairs that come as soon
//! as they are secured, sessions taken up again, and records that nobody made.
use furzeladle::raw;
use furzeladle::RECORD_SIZE;
use furzeladle::{list, listing, Asked, Card, FieldTable, FieldTolerance, FieldWeight, Listed, Query, Refusal};
use furzeladle::{FieldRows, Meaning, Progress, Session, Taken, TrimRows, TrimTable, TrimTolerance, TrimWeight};
use furzeladle_tests::cases::{asked, card, table, withdraw, Dice, Spread};

const CASES: u64 = 6_000;

/// Two seeded tables on a card, of fewer rows than this.
fn two_tables(dice: &mut Dice, card: Card, most: u32) -> (FieldTable, TrimTable) {
    let (spread, longest) = (Spread::of(dice, card), dice.pick(&[2, 12, most]));
    let [f, t] = [(); 2].map(|()| {
        let rows = dice.below(longest);
        let mut numbers = table(dice, rows, spread);
        withdraw(dice, card, &mut numbers);
        numbers
    });
    (FieldTable::from_numbers(f, card).unwrap(), TrimTable::from_numbers(t, card).unwrap())
}

/// A seeded query and two tables that it can be asked over; the dice go on.
fn seeded(seed: u64) -> (Dice, Asked, FieldTable, TrimTable) {
    let mut dice = Dice::new(seed + 7_000_001);
    let card = card(&mut dice);
    let (field, trim) = two_tables(&mut dice, card, 60);
    let asked = asked(&mut dice, card);
    (dice, asked, field, trim)
}

/// Reads and takes in any order: the same answers, records, depths and shown rows.
#[test]
fn calls_beside_those_over_slices() {
    for seed in 0..CASES {
        let (mut dice, asked, field, trim) = seeded(seed);
        let (f, t) = (field.numbers(), trim.numbers());
        let mut plain = raw::Session::open(asked, f, t).unwrap();
        let mut session = Session::open(asked, &field, &trim).unwrap();
        for _ in 0..dice.below(60) {
            match dice.one_in(2) {
                true => assert_eq!(Ok(session.read()), plain.read(f, t), "seed {seed}"),
                false => assert_eq!(Ok(session.take()), plain.take(f, t), "seed {seed}"),
            }
            assert_eq!(session.record(), plain.record(), "seed {seed}");
            let (FieldRows(p), TrimRows(q)) = session.depths();
            assert_eq!(((p, q), session.joined()), (plain.depths(), plain.joined()));
            let shown = session.show().map(|shown| (shown.table, shown.first, shown.numbers()));
            assert_eq!(shown, plain.show(f, t), "seed {seed}");
            let counted = session.show().map(|shown| shown.rows().len() * asked.field_card.width());
            assert_eq!(counted, shown.map(|(.., numbers)| numbers.len()));
        }
    }
}

/// The next pair by takes over plain slices, a block being read wherever none is secured.
fn next_by_takes(plain: &mut raw::Session, f: &[i32], t: &[i32]) -> Option<(u32, u32, u32)> {
    loop {
        match plain.take(f, t).unwrap() {
            Taken::Given(pair) => return Some((pair.sum, pair.field, pair.trim)),
            Taken::NotYet => assert_eq!(plain.read(f, t), Ok(Progress::Read)),
            Taken::Finished => return None,
        }
    }
}

fn rows(listed: Listed) -> (u32, u32, u32) {
    (listed.pair.sum, listed.pair.field, listed.pair.trim)
}

/// Each pair comes as soon as it is secured, no row being read after it; the sums are those of the list. Settled first,
/// the pairs are the list's, with their numbers and distances.
#[test]
fn pairs_as_soon_as_they_are_secured() {
    let (mut pairs, mut before_the_rest) = (0, 0);
    for seed in 0..CASES {
        let (_, asked, field, trim) = seeded(seed);
        let (f, t) = (field.numbers(), trim.numbers());
        let whole = list(asked, f, t).unwrap();
        let mut plain = raw::Session::open(asked, f, t).unwrap();
        let mut session = Session::open(asked, &field, &trim).unwrap();
        let mut sums = Vec::new();
        while let Some(listed) = session.pairs().next() {
            assert_eq!(Some(rows(listed)), next_by_takes(&mut plain, f, t), "seed {seed}");
            assert_eq!(session.record(), plain.record(), "seed {seed}");
            before_the_rest += u32::from(session.depths() != whole.depths);
            sums.push(listed.pair.sum);
            assert_eq!(session.out() as usize, sums.len());
            assert_eq!(session.pairs().size_hint(), (0, Some(asked.query.k as usize - sums.len())));
        }
        assert_eq!(next_by_takes(&mut plain, f, t), None, "seed {seed}");
        assert_eq!(
            (session.read(), session.take(), session.pairs().next()),
            (Progress::Settled, Taken::Finished, None)
        );
        assert_eq!(sums, whole.pairs.iter().map(|listed| listed.pair.sum).collect::<Vec<_>>(), "seed {seed}");
        assert_eq!((session.depths(), sums.len()), (whole.depths, whole.pairs.len()), "seed {seed}");
        pairs += sums.len();
        let ranked = Session::open(asked, &field, &trim).unwrap().into_list();
        assert_eq!(ranked, whole, "seed {seed}");
        assert_eq!(asked.over(&field, &trim).list(), Ok(whole), "seed {seed}");
        assert_eq!(asked.over(&field, &trim).listing(), listing(asked, f, t), "seed {seed}");
    }
    println!("{pairs} pairs, {before_the_rest} of them before the rest was read");
    assert!(pairs > 10_000 && before_the_rest > 3_000);
}

/// Of long tables the first pair comes out after a block or two, and each further one reads on.
#[test]
fn the_first_pair_before_the_rest_is_read() {
    let row = |i: i32| [i + 1, 9_999 - i, 0, 0];
    let numbers: Vec<i32> = (0..9_000).flat_map(row).collect();
    let field = FieldTable::from_numbers(numbers.clone(), Card::Old).unwrap();
    let trim = TrimTable::from_numbers(numbers, Card::Old).unwrap();
    let mut session = Session::open(Query::new(64).block(1).radius(0), &field, &trim).unwrap();
    let mut depths = Vec::new();
    for listed in session.pairs().take(1) {
        assert_eq!(rows(listed), (19_998, 1, 1));
    }
    depths.push(session.depths());
    for _ in &mut session {}
    depths.push(session.depths());
    assert_eq!(depths[0], (FieldRows(1), TrimRows(1)));
    assert!(depths[1].0 > FieldRows(5) && depths[1].1 < TrimRows(64));
    assert_eq!(session.out(), 64);
}

/// Laid aside and taken up again after every call: nothing is changed by it.
#[test]
fn sessions_taken_up_again() {
    for seed in 0..CASES / 2 {
        let (mut dice, asked, field, trim) = seeded(seed);
        let mut whole = Session::open(asked, &field, &trim).unwrap();
        let mut parted = Session::open(asked, &field, &trim).unwrap();
        for _ in 0..dice.below(20) {
            match dice.one_in(2) {
                true => assert_eq!(parted.read(), whole.read()),
                false => assert_eq!(parted.take(), whole.take()),
            }
            let mut stored = parted.into_record().to_vec();
            stored.resize(stored.len() + dice.below(3) as usize, 77);
            parted = Session::from_record(&stored, &field, &trim).unwrap();
            assert_eq!(parted.record(), whole.record(), "seed {seed}");
        }
        assert_eq!(parted.into_list(), whole.into_list(), "seed {seed}");
    }
}

/// Records from before there were tolerances, cards and weights go on as they were.
#[test]
fn records_stored_before() {
    for seed in 0..CASES / 6 {
        let mut dice = Dice::new(seed + 8_000_001);
        let (field, trim) = two_tables(&mut dice, Card::Old, 30);
        let query = furzeladle_tests::cases::query(&mut dice);
        let mut session = Session::open(query, &field, &trim).unwrap();
        (0..dice.below(6)).for_each(|_| _ = session.read());
        let stored = *session.record();
        let taken_up = |length: usize| Session::from_record(&stored[..length], &field, &trim);
        for length in [204, 206, 207, stored.len()] {
            assert_eq!(taken_up(length).unwrap().record(), &stored, "seed {seed}");
        }
        assert_eq!([0, 12, 203].map(|length| taken_up(length).unwrap_err()), [Refusal::ShortSlice; 3]);
    }
}

/// What is no record of these tables is refused, and by what.
#[test]
fn sessions_not_taken_up() {
    let numbers: Vec<i32> = [1, 5, 0, 0].repeat(5);
    let (field, trim) = (FieldTable::from_numbers(numbers.clone(), Card::Old).unwrap(), trim_of(&numbers, Card::Old));
    let mut session = Session::open(Query::new(3).block(2), &field, &trim).unwrap();
    session.read();
    let record = session.into_record();
    let refused = |record: &[u32], trim: &TrimTable| Session::from_record(record, &field, trim).map(drop).unwrap_err();
    assert_eq!(refused(&[0; RECORD_SIZE], &trim), Refusal::Record);
    let deeper = |at: usize, number: u32| {
        let mut record = record;
        record[at] = number;
        record
    };
    assert_eq!(refused(&deeper(5, 6), &trim), Refusal::Record);
    assert_eq!(refused(&deeper(206, 4), &trim), Refusal::Record);
    assert_eq!(refused(&record, &trim_of(&numbers[..16], Card::Old)), Refusal::TableSize);
    // twenty numbers are four rows of the new card
    let light = [[1, 5, 0, 0, 9]; 4].concat();
    assert_eq!(refused(&record, &trim_of(&light, Card::New)), Refusal::Cards);
    assert_eq!(refused(&deeper(206, 3), &trim), Refusal::Cards);
    assert!(Session::from_record(&record, &field, &trim).is_ok());
}

fn trim_of(numbers: &[i32], card: Card) -> TrimTable {
    TrimTable::from_numbers(numbers, card).unwrap()
}

/// A record with up to three numbers changed: of the query, the depths, the counts, the first two pairs held, and those
/// that were added since.
fn forged(dice: &mut Dice, record: &[u32]) -> Vec<u32> {
    let mut record = record.to_vec();
    for _ in 0..1 + dice.below(3) {
        let place = dice.pick(&[0, 1, 2, 5, 6, 7, 8, 9, 12, 13, 14, 15, 16, 17, 204, 205, 207, 208, 209]);
        let (old, any) = (record[place], dice.below(200_000));
        record[place] = dice.pick(&[0, 1, 2, 3, 9, old + 1, old.saturating_sub(1), any]);
    }
    record
}

/// Whatever is taken up runs to its end: no call of it is refused, and no more than k pairs are out.
#[test]
fn records_that_nobody_made() {
    let (mut taken_up, mut pairs) = (0, 0);
    for seed in 0..20 * CASES {
        let (_, asked, field, trim) = seeded(seed % CASES);
        let mut dice = Dice::new(seed + 9_000_001);
        let mut session = Session::open(asked, &field, &trim).unwrap();
        (0..dice.below(8)).for_each(|_| _ = session.read());
        let record = forged(&mut dice, session.record());
        if record == session.record() {
            continue;
        }
        let Ok(mut session) = Session::from_record(&record, &field, &trim) else { continue };
        if dice.one_in(2) {
            session.settle();
        }
        taken_up += 1;
        pairs += session.pairs().count();
        assert!(session.out() <= record[0], "seed {seed}");
        assert_eq!((session.read(), session.take()), (Progress::Settled, Taken::Finished), "seed {seed}");
    }
    println!("{taken_up} taken up, {pairs} pairs");
    assert!(taken_up > 20_000 && pairs > 50_000);
}

/// Two cards are refused by 15, whoever asks; a query's own numbers come first.
#[test]
fn tables_on_different_cards() {
    let field = FieldTable::from_numbers([1, 9, 0, 0, 0, 2, 8, 0, 0, 10_000], Card::New).unwrap();
    let trim = trim_of(&[1, 9, 0, 0, 0, 2, 8, 0, 0, 10_000], Card::New);
    let query = Query::new(4).block(1).radius(0);
    let sums = |asked: Asked| asked.over(&field, &trim).list().unwrap().pairs.iter().map(|l| l.pair.sum).collect();
    let found: Vec<u32> = sums(query.into());
    assert_eq!(found, [18, 16]);
    let on_old: Vec<u32> = sums(query.on(Card::Old));
    assert_eq!(on_old, found);
    for plain in [trim_of(&[1, 9, 0, 0], Card::Old), trim_of(&[], Card::Old)] {
        let over = query.over(&field, &plain);
        assert_eq!((over.list().err(), over.listing().err()), (Some(Refusal::Cards), Some(Refusal::Cards)));
        assert_eq!(over.open().err(), Some(Refusal::Cards));
        assert_eq!(Session::open(query.on(Card::New), &field, &plain).err(), Some(Refusal::Cards));
        assert_eq!(Query::new(0).over(&field, &plain).open().err(), Some(Refusal::ListLength));
        assert_eq!(query.block(0).over(&field, &plain).open().err(), Some(Refusal::Block));
        assert_eq!(query.radius(40_001).over(&field, &plain).open().err(), Some(Refusal::Radius));
        let heavy = query.weights(FieldWeight(10), TrimWeight(1));
        assert_eq!(heavy.over(&field, &plain).open().err(), Some(Refusal::Weight));
        let loose = query.surely(FieldTolerance(501), TrimTolerance(0));
        assert_eq!(loose.over(&field, &plain).open().err(), Some(Refusal::Tolerance));
    }
}

/// Tables are lent to many threads, and a session goes on in another.
#[test]
fn sessions_on_several_threads() {
    let (_, asked, field, trim) = seeded(11);
    let wanted = list(asked, field.numbers(), trim.numbers()).unwrap();
    std::thread::scope(|threads| {
        for reads in 0..4 {
            let mut session = Session::open(asked, &field, &trim).unwrap();
            (0..reads).for_each(|_| _ = session.read());
            let wanted = &wanted;
            threads.spawn(move || assert_eq!(&session.into_list(), wanted));
        }
    });
}

/// What is said of a query stands in whatever order it is said, and a query may still be written out.
#[test]
fn queries_in_any_order() {
    let (v, w) = (FieldWeight(2), TrimWeight(3));
    let (t, u) = (FieldTolerance(4), TrimTolerance(5));
    let one = Query::new(7).radius(9).block(8).weights(v, w).surely(t, u).on(Card::New);
    let other = Query { k: 7, block: 1, radius: 2 }.on(Card::New).surely(t, u).radius(9).weights(v, w).block(8);
    assert_eq!(one, other);
    assert_eq!(one.query, Query { k: 7, block: 8, radius: 9 });
    assert_eq!((one.field_weight, one.trim_weight, one.meaning), (v, w, Meaning::Surely));
    assert_eq!((one.field_tolerance, one.trim_tolerance, one.trim_card), (t, u, Card::New));
    assert_eq!(Asked::default(), Query { k: 10, block: Query::BLOCK, radius: Query::RADIUS }.into());
}
