//! The block-based algorithm (BA) of Qi, Bouros and Mamoulis, Top-k Spatial Distance Joins (2020), as printed, its blocks
//! joined by a plane sweep: its "No-Index" form.
use crate::held::Held;
use crate::outcome::Outcome;
use crate::printed::{read_until_secured, start};
use crate::rows::part;
use crate::sweep::{spots, sweep, Spot};
use furzeladle::Query;

/// A block sorted by a, and its upper score.
struct Block<const W: usize> {
    spots: Vec<Spot<W>>,
    upper: u32,
}

impl<const W: usize> Block<W> {
    fn of(t: &[i32], from: u32, to: u32) -> Self {
        let rows = part::<W>(t, from, to);
        Block {
            spots: spots(rows, from),
            upper: rows[1] as u32,
        }
    }
}

/// Joins a field block and a trim block unless their upper scores are within the bound: whether, and the tests.
fn join<const W: usize>(
    field: &Block<W>,
    trim: &Block<W>,
    radius: i32,
    held: &mut Held,
) -> (u64, u64) {
    if (field.upper + trim.upper) as i32 <= held.bound() {
        return (0, 0);
    }
    let tests = sweep(&field.spots, &trim.spots, radius, |pair| held.put(pair));
    (1, tests)
}

pub fn swept<const W: usize>(query: Query, field: &[i32], trim: &[i32]) -> Outcome {
    let (mut reading, mut held) = start::<W>(query, field, trim);
    let mut blocks: [Vec<Block<W>>; 2] = [Vec::new(), Vec::new()];
    let (mut joined, mut tests) = (0, 0);
    read_until_secured(
        &mut reading,
        &mut held,
        query.block,
        |reading, held, new, (from, to)| {
            let block = Block::of(reading.tables[new], from, to);
            for other in &blocks[1 - new] {
                let (f, t) = if new == 0 {
                    (&block, other)
                } else {
                    (other, &block)
                };
                let (one, more) = join(f, t, query.radius as i32, held);
                joined += one;
                tests += more;
            }
            blocks[new].push(block);
        },
    );
    reading.outcome(&held, tests, joined)
}
