//! Queries with tolerances, on both cards: the library beside plain Rust. Sums, depths and joined counts are compared.
use crate::clock;
use crate::contenders::{CONTENDERS, EACH_ROW_ONCE, LIBRARY, SAME_CHECKS};
use crate::tables::{tables, Shape, Weighed};
use furzeladle::{Asked, Card, FieldTolerance, Meaning, Query, TrimTolerance};
use std::hint::black_box;

const ROWS: (u32, u32) = (38_000, 12_000);
const SEEDS: u64 = 3;
const ROUNDS: usize = 3;
const LEAST_MS: f64 = 4.0;

/// Both tolerances added, meaning, radius, and block.
const CASES: [(u32, Meaning, u32, u32); 9] = [
    (10, Meaning::Possibly, 26, 128),
    (100, Meaning::Possibly, 26, 128),
    (1_000, Meaning::Possibly, 26, 128),
    (100, Meaning::Possibly, 1_000, 128),
    (10, Meaning::Surely, 40, 128),
    (100, Meaning::Surely, 255, 128),
    (500, Meaning::Surely, 1_000, 128),
    (10, Meaning::Possibly, 26, 16),
    (10, Meaning::Surely, 40, 16),
];

fn asked(card: Card, (t, meaning, radius, block): (u32, Meaning, u32, u32)) -> Asked {
    let radius = match card {
        Card::Old => radius,
        Card::New => 2 * radius,
    };
    let query = Query {
        k: 10,
        block,
        radius,
    };
    let (u, v) = (FieldTolerance(t / 2), TrimTolerance(t - t / 2));
    query.on(card).tolerating(u, v, meaning)
}

/// Milliseconds of a run.
fn ms(contender: usize, asked: Asked, t: &Weighed) -> f64 {
    let mut runs = 1;
    loop {
        let run = |_| {
            black_box(CONTENDERS[contender].run(asked, black_box(t)));
        };
        let ms = clock::ms(|| (0..runs).for_each(run));
        if ms >= LEAST_MS {
            return ms / f64::from(runs);
        }
        runs *= 2;
    }
}

/// The least times of these contenders, which alternate.
fn least<const N: usize>(contenders: [usize; N], asked: Asked, t: &Weighed) -> [f64; N] {
    let mut least = [f64::INFINITY; N];
    for _ in 0..ROUNDS {
        for (time, contender) in least.iter_mut().zip(contenders) {
            *time = time.min(ms(contender, asked, t));
        }
    }
    least
}

/// The library's time, and over the others'; how many pairs came out of how many rows.
fn seeded(asked: Asked, seed: u64) -> ([f64; 3], String) {
    let t = Weighed::new(asked, tables(Shape::Uniform, asked.field_card, ROWS, seed));
    let ours = CONTENDERS[LIBRARY].run(asked, &t);
    for other in [SAME_CHECKS, EACH_ROW_ONCE] {
        let other = CONTENDERS[other].run(asked, &t);
        assert_eq!(
            (&other.sums, other.depths, other.joined),
            (&ours.sums, ours.depths, ours.joined)
        );
    }
    let [library, same, once] = least([LIBRARY, SAME_CHECKS, EACH_ROW_ONCE], asked, &t);
    let [p, q] = ours.depths;
    let read = format!("{} of {p} + {q}", ours.sums.len());
    ([library, library / same, library / once], read)
}

fn row(card: Card, case: (u32, Meaning, u32, u32)) {
    let asked = asked(card, case);
    let mut seeds: Vec<([f64; 3], String)> = (1..=SEEDS).map(|seed| seeded(asked, seed)).collect();
    seeds.sort_by(|a, b| a.0[1].total_cmp(&b.0[1]));
    let ([ms, same, once], read) = &seeds[seeds.len() / 2];
    let (low, high) = (seeds[0].0[1], seeds[seeds.len() - 1].0[1]);
    let (t, meaning, _, block) = case;
    let (card, radius) = (card as u32, asked.query.radius);
    println!("| {card} | {meaning:?} | {t} | {radius} | {block} | {read} | {ms:.3} | {same:.2} ({low:.2}–{high:.2}) | {once:.2} |");
}

pub fn run() {
    println!("| Coordinates | Meaning | Tolerances | Radius | Block | Pairs of rows read | Library, ms | same checks | each row once |");
    println!("|---|---|---|---|---|---|---|---|---|");
    for card in [Card::Old, Card::New] {
        CASES.iter().for_each(|&case| row(card, case));
    }
}
