//! Checked tables: from numbers beside the rules written out in plain Rust, from files beside the reader that shares
//! nothing with the library; the kinds that files name; refusals as cases and as numbers.
use furzeladle::raw::{self, check_rows};
use furzeladle::{check, load, AnyTable, Card, FieldRows, FieldTable, Kind, Refusal, Table, TrimRows, TrimTable};
use furzeladle_tests::cases::{card, table, withdraw, Dice, Spread};
use furzeladle_tests::{file, spelled};
use std::error::Error;

/// Numbers at the ends of the ranges and just beyond them.
const EDGES: [i32; 18] = [
    i32::MIN,
    -12_801,
    -12_800,
    -1,
    0,
    1,
    9_999,
    10_000,
    10_001,
    12_700,
    12_701,
    65_535,
    999_999,
    1_000_000,
    5,
    20,
    400,
    i32::MAX,
];

/// 4, or 6 and 7 of the first row that is not legal, as the rules have it.
fn plainly(numbers: &[i32], card: Card) -> Result<u32, (u32, u32)> {
    let wide = if card == Card::New { 5 } else { 4 };
    if !numbers.len().is_multiple_of(wide) || numbers.len() / wide > 65_535 {
        return Err((4, 0));
    }
    let ranges = [1..=999_999, 0..=9_999, -12_800..=12_700, -12_800..=12_700, 0..=10_000];
    let mut before = 9_999;
    for (row, number) in numbers.chunks(wide).zip(1..) {
        if !row.iter().zip(&ranges).all(|(n, range)| range.contains(n)) {
            return Err((6, number));
        }
        if row[1] > before {
            return Err((7, number));
        }
        before = row[1];
    }
    Ok((numbers.len() / wide) as u32)
}

/// The same from both kinds of table, by the library: what they keep is what they were given.
fn checked(numbers: &[i32], card: Card) -> Result<u32, (u32, u32)> {
    let told = |refusal: Refusal| (refusal.number(), refusal.row().unwrap_or(0));
    let field = FieldTable::from_numbers(numbers, card).map_err(told);
    let trim = TrimTable::from_numbers(numbers.to_vec(), card).map_err(told);
    let counts = (field.as_ref().map(|table| table.count().0), trim.as_ref().map(|table| table.count().0));
    assert_eq!(counts.0, counts.1);
    let alone = check_rows(numbers, card).map_err(|refusal| (refusal.number, refusal.row));
    if let (Ok(field), Ok(trim)) = (field, trim) {
        assert_eq!((field.card(), field.numbers()), (card, numbers));
        assert_eq!((trim.card(), trim.into_numbers()), (card, numbers.to_vec()));
    }
    alone
}

/// A number that may be outside its range, a score that may rise, a row that may be cut.
fn damage(dice: &mut Dice, wide: usize, numbers: &mut Vec<i32>) {
    let some = |dice: &mut Dice, n: usize| dice.below(n as u32) as usize;
    match dice.below(4) {
        0 if dice.one_in(4) => numbers.truncate(numbers.len().saturating_sub(1 + some(dice, wide))),
        1 if dice.one_in(4) => numbers.push(1),
        2 if !numbers.is_empty() => {
            let row = some(dice, numbers.len() / wide + 1).min(numbers.len() / wide - 1);
            numbers[wide * row + 1] += 1;
        }
        _ if !numbers.is_empty() => {
            let place = some(dice, numbers.len());
            numbers[place] = dice.pick(&EDGES);
        }
        _ => {}
    }
}

#[test]
fn numbers_beside_plain_rust() {
    let (mut accepted, mut refused, mut deep) = (0, [0; 8], 0);
    for seed in 0..30_000 {
        let mut dice = Dice::new(seed + 6_000_001);
        let card = card(&mut dice);
        let (spread, rows) = (Spread::of(&mut dice, card), dice.below(40));
        let mut numbers = table(&mut dice, rows, spread);
        withdraw(&mut dice, card, &mut numbers);
        for _ in 0..dice.below(3) {
            if numbers.len() >= card.width() {
                damage(&mut dice, card.width(), &mut numbers);
            }
        }
        let found = checked(&numbers, card);
        assert_eq!(found, plainly(&numbers, card), "seed {seed}");
        match found {
            Ok(_) => accepted += 1,
            Err((number, row)) => {
                refused[number as usize] += 1;
                deep += u32::from(row > 10);
            }
        }
    }
    println!("{accepted} accepted, refused by number {refused:?}, {deep} below row 10");
    assert!(accepted > 10_000 && [4, 6, 7].iter().all(|n| refused[*n] > 1_000) && deep > 2_000);
}

#[test]
fn every_number_at_its_edges() {
    for card in [Card::Old, Card::New] {
        let rows: Vec<i32> =
            [[7, 400, 0, 0, 0], [8, 20, 1, 1, 1], [9, 20, 2, 2, 2], [10, 0, 3, 3, 3], [11, 0, 4, 4, 4]]
                .iter()
                .flat_map(|row| &row[..card.width()])
                .copied()
                .collect();
        for place in 0..rows.len() {
            for edge in EDGES {
                let mut numbers = rows.clone();
                numbers[place] = edge;
                assert_eq!(checked(&numbers, card), plainly(&numbers, card), "{edge} at {place}");
            }
        }
        for length in 0..=rows.len() {
            assert_eq!(checked(&rows[..length], card), plainly(&rows[..length], card), "{length} numbers");
        }
    }
}

#[test]
fn the_longest_tables() {
    for card in [Card::Old, Card::New] {
        let wide = card.width();
        let mut numbers = [5, 9, 0, 0, 0][..wide].repeat(65_535);
        assert_eq!(checked(&numbers, card), Ok(65_535));
        for row in [1, 2, 3, 32_767, 32_768, 65_534, 65_535] {
            let at = wide * (row - 1);
            let pattern = std::mem::replace(&mut numbers[at], 0);
            assert_eq!(checked(&numbers, card), Err((6, row as u32)));
            numbers[at] = pattern;
            let score = std::mem::replace(&mut numbers[at + 1], 8);
            let next = if row < 65_535 { Err((7, row as u32 + 1)) } else { Ok(65_535) };
            assert_eq!(checked(&numbers, card), next);
            numbers[at + 1] = score;
        }
        numbers.extend_from_within(..wide);
        assert_eq!(checked(&numbers, card), Err((4, 0)));
    }
}

/// The kind that a table's file is read as.
fn peeked(bytes: &[u8], old: i32) -> i32 {
    match bytes.get(6..12) {
        Some(b"     3") if old == 1 => 3,
        Some(b"     4") if old == 2 => 4,
        _ => old,
    }
}

fn told<T>(answer: Result<T, Refusal>) -> Result<T, (u32, u32)> {
    answer.map_err(|refusal| (refusal.number(), refusal.row().unwrap_or(0)))
}

/// One file, as a field table, as trim, as whatever it names.
fn same_file(bytes: &[u8]) {
    let spelled = |kind: i32| spelled::rows(bytes, kind).map(|rows| rows.concat());
    let field = told(FieldTable::from_file(bytes)).map(FieldTable::into_numbers);
    let trim = told(TrimTable::from_file(bytes)).map(TrimTable::into_numbers);
    assert_eq!(field, spelled(peeked(bytes, 1)), "{}", String::from_utf8_lossy(bytes));
    assert_eq!(trim, spelled(peeked(bytes, 2)), "{}", String::from_utf8_lossy(bytes));
    let named = Kind::named_by(bytes);
    let any = told(AnyTable::from_file(bytes)).map(|table| {
        assert_eq!(Some(table.kind()), named);
        let (count, wide) = (table.count() as usize, table.kind().card.width());
        let numbers = match table {
            AnyTable::Field(table) => table.into_numbers(),
            AnyTable::Trim(table) => table.into_numbers(),
        };
        assert_eq!(numbers.len(), wide * count);
        numbers
    });
    let is_trim = named.is_some_and(|kind| kind.table == Table::Trim);
    assert_eq!(any, if is_trim { trim } else { field });
}

#[test]
fn files_beside_the_other_reader() {
    for kind in 0..=6 {
        let (old, new) = (file(kind, &[[7, 3, -4, 0], [8, 2, 5, -12_800]]), file(kind, &[[7, 3, -4, 0, 10_000]]));
        for bytes in [old, new] {
            for at in 0..bytes.len() {
                for byte in [b' ', b'0', b'1', b'2', b'3', b'4', b'5', b'9', b'-', b'\n', b'\t', 0] {
                    let mut damaged = bytes.clone();
                    damaged[at] = byte;
                    same_file(&damaged);
                }
                same_file(&bytes[..at]);
            }
            same_file(&bytes);
        }
        same_file(&file::<4>(kind, &[]));
    }
}

#[test]
fn kinds_and_the_files_that_name_them() {
    for (number, kind) in (1..).zip(Kind::ALL) {
        assert_eq!((kind.number(), i32::from(kind), Kind::numbered(number)), (number, number, Some(kind)));
        assert_eq!(Kind::new(kind.table, kind.card), kind);
        let bytes = file::<5>(number as u32, &[]);
        assert_eq!((Kind::named_by(&bytes), check(&bytes, kind)), (Some(kind), Ok(0)));
        assert_eq!(load(&bytes, kind, &mut []), Ok(0));
        assert_eq!(Kind::named_by(&bytes[..12]), Some(kind));
        assert_eq!(Kind::named_by(&bytes[..11]), None);
    }
    assert_eq!([0, 5, -1, i32::MIN].map(Kind::numbered), [None; 4]);
    for columns in ["     0", "     5", "    03", "    3 ", "    33", "\t    3", "3     ", "    -3", "      "] {
        assert_eq!(Kind::named_by(format!("     1{columns}\n").as_bytes()), None, "{columns}");
    }
    let words = Kind::ALL.map(|kind| kind.to_string());
    assert_eq!(
        words,
        ["field on the old card", "trim on the old card", "field on the new card", "trim on the new card"]
    );
}

#[test]
fn rows_of_a_table() {
    let field = FieldTable::from_numbers([7, 3, -4, 1, 8, 0, 5, -6], Card::Old).unwrap();
    let trim = TrimTable::from_numbers([9, 2, 0, 0, 10_000], Card::New).unwrap();
    assert_eq!((field.count(), trim.count()), (FieldRows(2), TrimRows(1)));
    assert_eq!((field.kind().number(), trim.kind().number()), (1, 4));
    let rows: Vec<_> = field.rows().collect();
    assert_eq!((rows[0].pattern, rows[0].score, rows[0].a, rows[0].b, rows[0].lightness), (7, 3, -4, 1, None));
    assert_eq!(rows.iter().map(|row| row.is_withdrawn()).collect::<Vec<_>>(), [false, true]);
    assert_eq!([0, 1, 2, 3].map(|number| field.row(number)), [None, Some(rows[0]), Some(rows[1]), None]);
    assert_eq!(field.rows().rev().map(|row| row.pattern).collect::<Vec<_>>(), [8, 7]);
    assert_eq!(trim.row(1).unwrap().lightness, Some(10_000));
    assert!(!field.is_empty() && FieldTable::from_numbers([], Card::New).unwrap().is_empty());
    assert_eq!(format!("{:>4}{:>4}", field.count(), trim.count()), "   2   1");
    assert_eq!(format!("{trim:?}"), "TableOf { kind: Kind { table: Trim, card: New }, rows: 1 }");
    assert_eq!(FieldTable::from_file_on(&file(1, &[[7, 3, -4, 1], [8, 0, 5, -6]]), Card::Old), Ok(field));
    assert_eq!(FieldTable::from_file_on(&file::<4>(1, &[]), Card::New), Err(Refusal::Kind));
}

#[test]
fn refusals_as_cases_and_as_numbers() {
    let named = [1, 2, 3, 4, 5, 6, 7, 8, 9, 10, 11, 12, 15, 16];
    let with_row = |number| matches!(number, 6 | 7 | 9) || !named.contains(&number);
    for (number, row) in (0..100).flat_map(|number| [(number, 0), (number, 1), (number, 65_535)]) {
        let told = raw::Refusal { number, row };
        let refusal = Refusal::from(told);
        assert_eq!(matches!(refusal, Refusal::Unnamed { .. }), !named.contains(&number));
        assert_eq!(refusal.number(), number);
        assert_eq!(refusal.row(), (row > 0 && with_row(number)).then_some(row));
        let back = raw::Refusal::from(refusal);
        assert_eq!(back, raw::Refusal { number, row: if with_row(number) { row } else { 0 } });
        assert_eq!((refusal.word(), refusal.meaning()), (told.word(), told.meaning()));
        assert_eq!(refusal.to_string(), back.to_string());
        let error: Box<dyn Error> = refusal.into();
        assert!(error.to_string().starts_with(&format!("{} ({number})", refusal.word())));
    }
    assert_eq!(Refusal::Cards.to_string(), "cards (15): the two tables are on different cards");
    assert_eq!(Refusal::RowLimit { row: Some(3) }.to_string(), "row limit (6) in row 3: a number outside its range");
    let header = Refusal::BadColumn { row: None }.to_string();
    assert_eq!(header, "bad column (9) in the header: a number or line feed not formed as it should be");
}
