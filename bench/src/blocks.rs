//! The library at several blocks, over the benchmark's radii: which is a good one where nobody says.
use crate::clock;
use crate::contenders::{CONTENDERS, WHOLE_QUERY};
use crate::report::grouped;
use crate::suite::{ARCHIVE, MIDDLE, RADII};
use crate::tables::{tables, Shape, Weighed};
use furzeladle::{Asked, Card, Query};
use std::hint::black_box;

const BLOCKS: [u32; 7] = [16, 32, 64, 128, 256, 512, 1_024];
const ROUNDS: usize = 9;
const LEAST_MS: f64 = 4.0;

fn ms(asked: Asked, t: &Weighed) -> f64 {
    let mut runs = 1;
    loop {
        let run = |_| {
            black_box(CONTENDERS[WHOLE_QUERY].run(asked, black_box(t)));
        };
        let ms = clock::ms(|| (0..runs).for_each(run));
        if ms >= LEAST_MS {
            return ms / f64::from(runs);
        }
        runs *= 2;
    }
}

/// The time of each block over that of the best, at a radius; the blocks take turns.
fn over_best(radius: u32, t: &Weighed) -> [f64; BLOCKS.len()] {
    let mut least = [f64::INFINITY; BLOCKS.len()];
    for _ in 0..ROUNDS {
        for (time, block) in least.iter_mut().zip(BLOCKS) {
            let query = Query {
                block,
                radius,
                ..MIDDLE
            };
            *time = time.min(ms(query.into(), t));
        }
    }
    let best = least.into_iter().fold(f64::INFINITY, f64::min);
    least.map(|time| time / best)
}

pub fn run() {
    let asked = Asked::from(MIDDLE);
    let t = Weighed::new(asked, tables(Shape::Uniform, Card::Old, ARCHIVE, 1));
    let radii = RADII.map(|radius| over_best(radius, &t));
    println!("| Block | Radius 3 | 13 | 26 | 128 | 255 | 1,000 | Geometric mean |");
    println!("|---|---|---|---|---|---|---|---|");
    for (i, block) in BLOCKS.into_iter().enumerate() {
        let times = radii.map(|times| times[i]);
        let logs: f64 = times.iter().map(|time| time.ln()).sum();
        let mean = (logs / times.len() as f64).exp();
        let cells = times.map(|time| format!("{time:.2}")).join(" | ");
        println!("| {} | {cells} | {mean:.2} |", grouped(block.into()));
    }
}
