//! Rows of a table as the baselines read them, numbered from 0 here. W is how many numbers a row has: 4, or 5 on the
//! new card.
use furzeladle::{Asked, Meaning, Query};

pub fn count<const W: usize>(t: &[i32]) -> u32 {
    (t.len() / W) as u32
}

pub fn score<const W: usize>(t: &[i32], i: u32) -> u32 {
    t[W * i as usize + 1] as u32
}

/// Rows from one number to before another.
pub fn part<const W: usize>(t: &[i32], from: u32, to: u32) -> &[i32] {
    &t[W * from as usize..W * to as usize]
}

/// Where the withdrawn rows among these begin, or `to`. Scores fall, so that they stand last.
pub fn live_end<const W: usize>(t: &[i32], from: u32, to: u32) -> u32 {
    if from == to || score::<W>(t, to - 1) > 0 {
        return to;
    }
    let (rows, _) = part::<W>(t, from, to).as_chunks::<W>();
    from + rows.partition_point(|r| r[1] > 0) as u32
}

/// The radius squared: with legal shades, 32 bits hold every square and sum here.
pub fn square(query: Query) -> i32 {
    (query.radius * query.radius) as i32
}

/// The shade is what stands behind number and score.
#[inline]
pub fn near<const W: usize>(x: &[i32], y: &[i32], square: i32) -> bool {
    let gap = |i: usize| x[i] - y[i];
    (2..W).map(|i| gap(i) * gap(i)).sum::<i32>() <= square
}

/// How much a coordinate's difference is raised, then lowered, before it counts: by both tolerances added.
#[derive(Clone, Copy)]
pub struct Faded {
    pub more: i32,
    pub less: i32,
}

impl Faded {
    /// None where there are no tolerances.
    pub fn of(asked: Asked) -> Option<Faded> {
        let t = (asked.field_tolerance.0 + asked.trim_tolerance.0) as i32;
        let (more, less) = match asked.meaning {
            Meaning::Surely => (t, 0),
            Meaning::Possibly => (0, t),
        };
        (t > 0).then_some(Faded { more, less })
    }
}

/// The same with tolerances.
#[inline]
pub fn near_faded<const W: usize>(x: &[i32], y: &[i32], square: i32, faded: Faded) -> bool {
    let gap = |i: usize| ((x[i] - y[i]).abs() + faded.more - faded.less).max(0);
    (2..W).map(|i| gap(i) * gap(i)).sum::<i32>() <= square
}
