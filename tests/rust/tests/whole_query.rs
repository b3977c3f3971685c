//! The whole query beside the model, on both cards: its list, depths and joined count, its refusals, and the listing's
//! lines.
use furzeladle::raw::{list, listing, List, Refusal};
use furzeladle::{root, Asked, Card, FieldTolerance, FieldWeight, Listed, Query, TrimTolerance, TrimWeight};
use furzeladle_tests::cases::{asked, card, query, scored_on, table, withdraw, Dice, Spread, WITHDRAWN};
use furzeladle_tests::lent::answers;
use furzeladle_tests::model::{self, Opening, Said};

const CASES: u64 = 20_000;

/// Row i, numbered from 1, of a table with so many numbers a row.
fn row(wide: usize, t: &[i32], i: u32) -> &[i32] {
    t.chunks(wide).nth(i as usize - 1).unwrap()
}

fn listed(card: Card, f: &[i32], t: &[i32], pair: furzeladle::Pair) -> Listed {
    let wide = model::wide(card);
    let (x, y) = (row(wide, f, pair.field), row(wide, t, pair.trim));
    Listed {
        pair,
        field_number: x[0] as u32,
        trim_number: y[0] as u32,
        squared_distance: model::squared_distance(x, y),
    }
}

/// A pair's line by Rust's own root and formatting.
fn line(rank: usize, listed: &Listed) -> String {
    let s = listed.squared_distance.isqrt();
    format!(
        "{rank:>6}{:>6}{:>6}{:>6}{s:>8}{:>8}",
        listed.pair.sum,
        listed.field_number,
        listed.trim_number,
        listed.squared_distance - s * s
    )
}

/// Seeded tables on a card, of fewer rows than this.
fn two_tables(dice: &mut Dice, card: Card, most: u32) -> (Vec<i32>, Vec<i32>) {
    let (spread, longest) = (Spread::of(dice, card), dice.pick(&[2, 12, most]));
    let (m, n) = (dice.below(longest), dice.below(longest));
    let (mut f, mut t) = (table(dice, m, spread), table(dice, n, spread));
    withdraw(dice, card, &mut f);
    withdraw(dice, card, &mut t);
    (f, t)
}

/// Reads until settled, then takes until finished, by the model.
fn modelled(asked: Asked, f: &[i32], t: &[i32]) -> Result<List, u32> {
    let (said, mut record) = model::open(asked, f, t);
    if let Said::Refused(number) = said {
        return Err(number);
    }
    loop {
        match model::read(f, t, &mut record) {
            Said::Refused(number) => return Err(number),
            Said::Settled => break,
            _ => {}
        }
    }
    let mut pairs = Vec::new();
    while let Said::Given(pair) = model::take(f, t, &mut record) {
        pairs.push(listed(asked.field_card, f, t, pair));
    }
    Ok(List { pairs, depths: (record.depth[0], record.depth[1]), joined: record.joined })
}

/// Now and then a query number, a card or a table that is refused.
fn damage(dice: &mut Dice, asked: &mut Asked, f: &mut Vec<i32>) {
    let wide = model::wide(asked.field_card);
    match dice.below(16) {
        0 => asked.query.k = dice.pick(&[0, 65, u32::MAX]),
        1 => asked.query.block = dice.pick(&[0, 1_025, u32::MAX]),
        2 => asked.query.radius = dice.pick(&[40_001, u32::MAX]),
        6 => asked.field_weight = FieldWeight(dice.pick(&[0, 10, u32::MAX])),
        7 => asked.trim_weight = TrimWeight(dice.pick(&[0, 10, u32::MAX])),
        3 => f.push(1),
        4 if !f.is_empty() => {
            let place = dice.below(f.len() as u32) as usize;
            f[place] = dice.pick(&[-1, 0, 10_000, 10_001, -12_801, i32::MIN, i32::MAX]);
        }
        5 if f.len() >= 2 * wide => {
            let row = 1 + dice.below((f.len() / wide) as u32 - 1) as usize;
            f[wide * row + 1] = f[wide * (row - 1) + 1] + 1;
        }
        10 => asked.field_tolerance = FieldTolerance(dice.pick(&[501, u32::MAX])),
        11 => asked.trim_tolerance = TrimTolerance(dice.pick(&[501, u32::MAX])),
        8 => asked.trim_card = card(dice),
        9 => asked.field_card = card(dice),
        _ => {}
    }
}

/// A list's bytes and the roots behind its pairs say the same.
fn printed(asked: Asked, list: &List, bytes: &[u8], f: &[i32], t: &[i32], seed: u64) {
    let text = std::str::from_utf8(bytes).unwrap();
    let lines: Vec<&str> = text.lines().collect();
    assert_eq!(lines.len(), list.pairs.len() + 2, "seed {seed}");
    let lent = answers(&Opening::from(asked).numbers(), f, t).listed.1;
    for (i, pair) in list.pairs.iter().enumerate() {
        assert_eq!(lines[i + 1], line(i + 1, pair), "seed {seed}");
        let at = 387 + 2 * i;
        let distance = pair.distance();
        assert_eq!(lent[at..at + 2], [distance.root, distance.rest], "seed {seed}");
    }
}

#[test]
fn whole_queries_beside_the_model() {
    let mut refused = [0; 17];
    let (mut pairs, mut by_tolerance_alone) = (0, 0);
    for seed in 0..CASES {
        let mut dice = Dice::new(seed + 2_000_001);
        let card = card(&mut dice);
        let (f, t) = two_tables(&mut dice, card, 60);
        let (mut f, mut asked) = (f, asked(&mut dice, card));
        damage(&mut dice, &mut asked, &mut f);
        let found = list(asked, &f, &t).map_err(|refusal| refusal.number);
        assert_eq!(found, modelled(asked, &f, &t), "seed {seed}");
        let bytes = listing(asked, &f, &t);
        match found {
            Ok(list) => {
                pairs += list.pairs.len();
                let beyond = u64::from(asked.query.radius).pow(2);
                by_tolerance_alone += list.pairs.iter().filter(|pair| pair.squared_distance > beyond).count();
                printed(asked, &list, &bytes.unwrap(), &f, &t, seed);
            }
            Err(number) => {
                refused[number as usize] += 1;
                assert_eq!(bytes, Err(Refusal { number, row: 0 }), "seed {seed}");
            }
        }
    }
    println!("{CASES} queries, {pairs} pairs, {by_tolerance_alone} beyond the radius, refusals by number {refused:?}");
    assert!(pairs > 20_000 && [1, 2, 3, 4, 6, 7, 12, 15, 16].iter().all(|n| refused[*n] > 100));
    assert!(by_tolerance_alone > 1_000);
}

#[test]
fn withdrawn_rows_by_hand() {
    for (i, card) in (0..WITHDRAWN.len()).flat_map(|i| [(i, Card::Old), (i, Card::New)]) {
        let case = &WITHDRAWN[i];
        let (f, t) = (scored_on(card, case.field), scored_on(card, case.trim));
        let query = case.query().on(card);
        let found = list(query, &f, &t).unwrap();
        let sums: Vec<u32> = found.pairs.iter().map(|listed| listed.pair.sum).collect();
        assert_eq!((sums.as_slice(), found.depths, found.joined), (case.sums, case.depths, case.joined), "case {i}");
        let text = String::from_utf8(listing(query, &f, &t).unwrap()).unwrap();
        let (p, q) = case.depths;
        let last = format!("\n{p:>6}{q:>6}{:>12}\n", case.joined);
        assert!(text.ends_with(&last), "case {i}: {text}");
    }
}

/// Who lends k, block and radius alone gets what weights 1 and 1, kinds 1 and 2 and no tolerances get; who lends more,
/// what it and the rest of these get.
#[test]
fn numbers_that_are_not_lent() {
    for seed in 0..2_000 {
        let mut dice = Dice::new(seed + 3_000_001);
        let (f, t) = two_tables(&mut dice, Card::Old, 40);
        let Query { k, block, radius } = query(&mut dice);
        let (w, u, v) = (dice.below(11), dice.pick(&[0, 1, 3, 500, 501]), dice.pick(&[0, 2, 500, 501]));
        let plain = [k, block, radius, 1, 1, 1, 2, 0, 0, 0];
        let weighted = [k, block, radius, w, 1, 1, 2, 0, 0, 0];
        let faded = [k, block, radius, 1, 1, 1, 2, u, 0, 0];
        let possibly = [k, block, radius, 1, 1, 1, 2, u, v, 0];
        for (all, least) in [(plain, 3), (weighted, 4), (faded, 8), (possibly, 9)] {
            let whole = answers(&all, &f, &t);
            for count in least..10 {
                assert_eq!(answers(&all[..count], &f, &t), whole, "seed {seed}, {count} numbers");
            }
        }
        assert_eq!(answers(&weighted, &f, &t).listed.0 == -12, w == 0 || w == 10, "seed {seed}");
        assert_eq!(answers(&faded, &f, &t).listed.0 == -16, u == 501, "seed {seed}");
        assert_eq!(answers(&possibly, &f, &t).listed.0 == -16, u == 501 || v == 501, "seed {seed}");
    }
}

/// Rows of one L each are paired as they are without it, unless they may surely lie apart in it: same list, depths and
/// joined count.
#[test]
fn one_lightness_for_all() {
    for seed in 0..2_000 {
        let mut dice = Dice::new(seed + 5_000_001);
        let (f, t) = two_tables(&mut dice, Card::Old, 40);
        let asked = asked(&mut dice, Card::Old);
        let asked = asked.possibly(asked.field_tolerance, asked.trim_tolerance);
        let lightness = dice.pick(&[0, 1, 5_000, 10_000]);
        let with = |t: &[i32]| t.chunks(4).flat_map(|row| [row, &[lightness]].concat()).collect::<Vec<_>>();
        assert_eq!(list(asked.on(Card::New), &with(&f), &with(&t)), list(asked, &f, &t), "seed {seed}");
        assert_eq!(listing(asked.on(Card::New), &with(&f), &with(&t)), listing(asked, &f, &t), "seed {seed}");
    }
}

/// The farthest two shades of the new card: their square, its root and what is left.
#[test]
fn the_farthest_shades() {
    let (f, t) = ([1, 9, -12_800, 12_700, 0], [2, 8, 12_700, -12_800, 10_000]);
    let found = list(Query { k: 1, block: 1, radius: 40_000 }.on(Card::New), &f, &t).unwrap();
    assert_eq!(found.pairs[0].squared_distance, 2 * 25_500 * 25_500 + 10_000 * 10_000);
    let distance = found.pairs[0].distance();
    assert_eq!((distance.root, distance.rest), (37_423, 19_071));
    for (radius, pairs) in [(37_423, 0), (37_424, 1)] {
        assert_eq!(list(Query { k: 1, block: 1, radius }.on(Card::New), &f, &t).unwrap().pairs.len(), pairs);
    }
}

/// 10 after 12 and before 4; 15 after 4 and before a row is looked at; 11 for the place of the answer behind all.
#[test]
fn the_places_of_refusals_10_and_15() {
    let (bad, rows) = ([0; 20], [1; 20]);
    let refused = |query: &[u32], f: &[i32]| {
        let found = answers(query, f, &bad);
        assert_eq!((found.opened.1, found.listed.1, found.printed.1), ([7; 210], [7; 515], [7; 2_668]));
        assert_eq!((found.opened.0, found.listed.0), (found.listed.0, found.printed.0), "{query:?}");
        found.opened.0
    };
    for (field, trim) in [(0, 2), (2, 2), (4, 4), (5, 4), (1, 0), (1, 1), (3, 3), (3, 5), (u32::MAX, 2), (1, u32::MAX)]
    {
        assert_eq!(refused(&[1, 1, 40_001, 1, 1, field, trim], &rows), -3);
        assert_eq!(refused(&[1, 1, 0, 1, 10, field, trim], &rows), -12);
        assert_eq!(refused(&[1, 1, 0, 1, 1, field, trim], &rows[..19]), -10);
        assert_eq!(refused(&[1, 1, 0, 1, 1, field, trim], &bad), -10);
    }
    for (field, trim) in [(1, 4), (3, 2)] {
        assert_eq!(refused(&[1, 1, 0, 1, 1, field, trim], &bad[..19]), -4);
        assert_eq!(refused(&[1, 1, 0, 1, 1, field, trim], &bad), -15);
        assert_eq!(refused(&[1, 1, 0, 1, 1, field, trim], &[]), -15);
    }
    assert_eq!(refused(&[1, 1, 0, 1, 1, 1, 4], &bad[..5]), -4);
    assert_eq!(refused(&[1, 1, 0, 1, 1, 3, 2], &bad[..4]), -4);
}

#[test]
fn queries_of_fewer_than_three_numbers() {
    for numbers in [&[][..], &[1], &[1, 1]] {
        let refused = answers(numbers, &[1, 1, 0, 0], &[1, 1, 0, 0]);
        assert_eq!((refused.opened.0, refused.listed.0, refused.printed.0), (-11, -11, -11));
    }
}

/// Beside Rust's own, at random lengths, and around the squares at both ends.
#[test]
fn roots_beside_rusts_own() {
    let whole = |n: u64| {
        let found = root(n);
        assert_eq!((found.root, found.rest), (n.isqrt(), n - n.isqrt() * n.isqrt()), "{n}");
    };
    let mut dice = Dice::new(4_000_001);
    for _ in 0..1_000_000 {
        let n = (u64::from(dice.below(u32::MAX)) << 32) | u64::from(dice.below(u32::MAX));
        whole(n >> dice.below(64));
        let s = n >> (32 + dice.below(32));
        (0..3).for_each(|i| whole((s * s).wrapping_sub(1).wrapping_add(i)));
    }
    (0..1_000).for_each(whole);
    (0..1_000).for_each(|i| whole(u64::MAX - i));
    assert_eq!((root(25).root, root(25).rest), (5, 0));
    assert_eq!((root(26).root, root(26).rest), (5, 1));
}

/// 3 before 12, 12 before 4 and before a row is looked at.
#[test]
fn the_place_of_refusal_12() {
    let query = Query { k: 1, block: 1, radius: 0 };
    let (bad, row) = ([0, 0, 0, 0], [1, 9_999, 0, 0]);
    let refused = |asked: Asked, f: &[i32]| list(asked, f, &row).map_err(|refusal| refusal.number).err();
    for (field, trim) in [(0, 1), (10, 1), (1, 0), (1, 10)] {
        let (field, trim) = (FieldWeight(field), TrimWeight(trim));
        assert_eq!(refused(Query { radius: 40_001, ..query }.weights(field, trim), &row), Some(3));
        assert_eq!(refused(query.weights(field, trim), &row[..3]), Some(12));
        assert_eq!(refused(query.weights(field, trim), &bad), Some(12));
    }
    let nines = query.weights(FieldWeight(9), TrimWeight(9));
    assert_eq!(refused(nines, &row[..3]), Some(4));
    assert_eq!(list(nines, &row, &row).unwrap().pairs[0].pair.sum, 179_982);
}
