//! A plane sweep along a: the pairs of two lists whose a lie within the radius, then those that are near.
use crate::rows::near;
use furzeladle::Pair;

/// A row of W numbers as a sweep wants it: its number from 1 stands in place of its pattern's.
#[derive(Clone, Copy)]
pub struct Spot<const W: usize>([i32; W]);

impl<const W: usize> Spot<W> {
    fn row(&self) -> u32 {
        self.0[0] as u32
    }

    fn score(&self) -> u32 {
        self.0[1] as u32
    }

    fn a(&self) -> i32 {
        self.0[2]
    }
}

/// Rows sorted by a; `before` rows of their table stand before them.
pub fn spots<const W: usize>(rows: &[i32], before: u32) -> Vec<Spot<W>> {
    let spot = |(i, &row): (usize, &[i32; W])| {
        let mut numbers = row;
        numbers[0] = before as i32 + i as i32 + 1;
        Spot(numbers)
    };
    let (rows, _) = rows.as_chunks::<W>();
    let mut spots: Vec<Spot<W>> = rows.iter().enumerate().map(spot).collect();
    spots.sort_unstable_by_key(Spot::a);
    spots
}

/// Calls `met` for each qualifying pair; the answer is how many pairs were tested.
pub fn sweep<const W: usize>(
    fields: &[Spot<W>],
    trims: &[Spot<W>],
    radius: i32,
    mut met: impl FnMut(Pair),
) -> u64 {
    let mut first = 0;
    let mut tests = 0;
    for f in fields {
        while first < trims.len() && trims[first].a() < f.a() - radius {
            first += 1;
        }
        for t in &trims[first..] {
            if t.a() > f.a() + radius {
                break;
            }
            tests += 1;
            if near::<W>(&f.0, &t.0, radius * radius) {
                met(Pair {
                    sum: f.score() + t.score(),
                    field: f.row(),
                    trim: t.row(),
                });
            }
        }
    }
    tests
}
