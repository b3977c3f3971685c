//! Join first, choose the best afterwards: both tables are read whole.
use crate::held::Held;
use crate::outcome::Outcome;
use crate::rows::{count, near, square};
use crate::sweep::{spots, sweep};
use furzeladle::Query;
use std::cmp::Reverse;

fn outcome<const W: usize>(field: &[i32], trim: &[i32], sums: Vec<u32>, tests: u64) -> Outcome {
    Outcome {
        sums,
        depths: [count::<W>(field), count::<W>(trim)],
        tests,
        joined: 0,
    }
}

/// All pairs by the double loop, then sorted.
pub fn all_pairs_sorted<const W: usize>(query: Query, field: &[i32], trim: &[i32]) -> Outcome {
    let square = square(query);
    let mut all = Vec::new();
    for (i, r) in field.chunks_exact(W).enumerate() {
        for (j, s) in trim.chunks_exact(W).enumerate() {
            if near::<W>(r, s, square) {
                all.push(((r[1] + s[1]) as u32, i as u32, j as u32));
            }
        }
    }
    all.sort_unstable_by_key(|&(sum, i, j)| (Reverse(sum), i, j));
    let sums = all.iter().take(query.k as usize).map(|&(sum, ..)| sum);
    let tests = u64::from(count::<W>(field)) * u64::from(count::<W>(trim));
    outcome::<W>(field, trim, sums.collect(), tests)
}

/// Both tables sorted by a and swept; the best k are held on the way.
pub fn plane_sweep<const W: usize>(query: Query, field: &[i32], trim: &[i32]) -> Outcome {
    let mut held = Held::new(query.k);
    let (fields, trims) = (spots::<W>(field, 0), spots::<W>(trim, 0));
    let tests = sweep(&fields, &trims, query.radius as i32, |pair| held.put(pair));
    outcome::<W>(field, trim, held.sums(), tests)
}
