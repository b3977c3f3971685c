//! The score-first algorithm (SFA) of Qi, Bouros and Mamoulis, Top-k Spatial Distance Joins (2020), row by row, with a scan
//! of the rows read: its "No-Index" form.
use crate::held::Held;
use crate::outcome::Outcome;
use crate::printed::{read_until_secured, start};
use crate::rows::{near, part, square};
use furzeladle::{Pair, Query};

/// Probes a row against the other table's rows, best first, while a sum can still pass the bound: how many were tested.
fn probe<const W: usize>(
    row: &[i32],
    others: &[i32],
    square: i32,
    held: &mut Held,
    pair: impl Fn(u32, u32) -> Pair,
) -> u64 {
    let mut tests = 0;
    let mut bound = held.bound();
    for (j, other) in others.chunks_exact(W).enumerate() {
        let sum = row[1] + other[1];
        if sum <= bound {
            break;
        }
        tests += 1;
        if near::<W>(row, other, square) {
            held.put(pair(sum as u32, j as u32 + 1));
            bound = held.bound();
        }
    }
    tests
}

pub fn scan<const W: usize>(query: Query, field: &[i32], trim: &[i32]) -> Outcome {
    let (mut reading, mut held) = start::<W>(query, field, trim);
    let square = square(query);
    let mut tests = 0;
    read_until_secured(
        &mut reading,
        &mut held,
        1,
        |reading, held, new, (from, to)| {
            let row = part::<W>(reading.tables[new], from, to);
            let others = part::<W>(reading.tables[1 - new], 0, reading.depths[1 - new]);
            tests += probe::<W>(row, others, square, held, |sum, other| match new {
                0 => Pair {
                    sum,
                    field: to,
                    trim: other,
                },
                _ => Pair {
                    sum,
                    field: other,
                    trim: to,
                },
            });
        },
    );
    reading.outcome(&held, tests, 0)
}
