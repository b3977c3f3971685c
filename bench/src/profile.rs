//! One query again and again by one contender, for a profiler.
use crate::contenders::CONTENDERS;
use crate::tables::{tables, Shape, Weighed};
use furzeladle::{Asked, Card, FieldTolerance, Meaning, Query, TrimTolerance};
use std::hint::black_box;

/// The query with half of this tolerance on each table.
fn faded(asked: Asked, both: u32, meaning: Meaning) -> Asked {
    let (u, v) = (FieldTolerance(both / 2), TrimTolerance(both - both / 2));
    asked.tolerating(u, v, meaning)
}

/// The words are the contender's place in the list, radius, k, block and how many runs; `new` behind them asks for the
/// new card, `drifting` or `apart` behind that for shades that drift, `surely T` or `possibly T` at the end for pairs
/// within a tolerance (both tables' added).
pub fn run(words: &[&str]) {
    let (words, both, meaning) = match words {
        [rest @ .., "surely", t] => (rest, *t, Meaning::Surely),
        [rest @ .., "possibly", t] => (rest, *t, Meaning::Possibly),
        _ => (words, "0", Meaning::Possibly),
    };
    let both: u32 = both.parse().expect("a number");
    let (words, shape) = match words {
        [rest @ .., "drifting"] => (rest, Shape::Drifting),
        [rest @ .., "apart"] => (rest, Shape::DriftingApart),
        _ => (words, Shape::Uniform),
    };
    let (words, card) = match words {
        [numbers @ .., "new"] => (numbers, Card::New),
        _ => (words, Card::Old),
    };
    let numbers: Vec<u32> = words.iter().map(|w| w.parse().expect("a number")).collect();
    let [contender, radius, k, block, runs] = numbers[..] else {
        panic!("five numbers are wanted, and perhaps some words behind them");
    };
    let asked = faded(Query { k, block, radius }.on(card), both, meaning);
    let t = Weighed::new(asked, tables(shape, card, (38_000, 12_000), 1));
    for _ in 0..runs {
        black_box(CONTENDERS[contender as usize].run(asked, &t));
    }
}
