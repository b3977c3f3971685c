//! The library's reading of a strict file beside the plain Rust reader, alternating.
use crate::clock;
use furzeladle::{Card, Table};
use furzeladle_tests::cases::Dice;
use furzeladle_tests::{check, file, load, plain};
use std::hint::black_box;

const ROWS: usize = 65_535;
const ROUNDS: usize = 101;

/// Rows of four or five numbers of every length, in legal order, always the same ones.
fn rows<const N: usize>() -> Vec<[i32; N]> {
    let mut dice = Dice::new(1);
    let mut row = || {
        let longest = 10_i32.pow(1 + dice.below(6));
        let [a, b] = [(); 2].map(|()| dice.between(-12_800, 12_700));
        let (pattern, score) = (dice.between(1, longest - 1), dice.between(0, 9_999));
        let mut row = [0; N];
        row[..4].copy_from_slice(&[pattern, score, a, b]);
        row[4..].fill_with(|| dice.between(0, 10_000));
        row
    };
    let mut rows: Vec<[i32; N]> = (0..ROWS).map(|_| row()).collect();
    rows.sort_by_key(|row| -row[1]);
    rows
}

fn ns_a_row(run: impl FnOnce()) -> f64 {
    clock::ms(run) * 1e6 / ROWS as f64
}

/// The least of many rounds: what other programs on the machine disturb least.
fn least(times: Vec<f64>) -> f64 {
    times.into_iter().fold(f64::INFINITY, f64::min)
}

/// Load and check by the library, each followed by plain Rust's. The numbers read go into the same two buffers, which
/// are not cleared between the rounds.
fn times(bytes: &[u8], card: Card) -> [Vec<f64>; 4] {
    let kind = Table::Field.kind(card);
    let mut ours = vec![0; card.width() * ROWS];
    let mut theirs = vec![0; card.width() * ROWS];
    let mut times = [const { Vec::new() }; 4];
    for _ in 0..ROUNDS {
        times[0].push(ns_a_row(|| {
            black_box(load(black_box(bytes), kind, &mut ours)).unwrap();
        }));
        times[1].push(ns_a_row(|| {
            black_box(plain::load(black_box(bytes), kind, &mut theirs)).unwrap();
        }));
        times[2].push(ns_a_row(|| {
            black_box(check(black_box(bytes), kind));
        }));
        times[3].push(ns_a_row(|| {
            black_box(plain::check(black_box(bytes), kind)).unwrap();
        }));
    }
    assert_eq!(ours, theirs);
    times
}

fn card(bytes: &[u8], card: Card, named: &str) {
    let [load, plain_load, check, plain_check] = times(bytes, card).map(least);
    for (what, ours, plain) in [
        ("reading into lent numbers", load, plain_load),
        ("the check alone", check, plain_check),
    ] {
        println!(
            "| {what}{named} | {ours:.1} | {plain:.1} | {:.2} |",
            ours / plain
        );
    }
}

pub fn run() {
    println!("| What | Library, ns a row | Plain Rust, ns a row | Ratio |");
    println!("|---|---|---|---|");
    card(&file(1, &rows::<4>()), Card::Old, "");
    card(&file(3, &rows::<5>()), Card::New, ", new card");
}
