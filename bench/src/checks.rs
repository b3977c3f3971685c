//! The rules' checks of a call, for the blockwise baseline.
use crate::blockwise::Join;
use crate::held::ahead;
use crate::rows::part;
use furzeladle::Pair;

/// 6 and 7 of rows from one number to before another.
pub fn rows_legal<const W: usize>(t: &[i32], from: u32, to: u32) -> bool {
    let mut before = if from == 0 {
        9_999
    } else {
        t[W * (from as usize - 1) + 1]
    };
    for r in part::<W>(t, from, to).chunks_exact(W) {
        let fits = (1..=999_999).contains(&r[0])
            && (0..=9_999).contains(&r[1])
            && (-12_800..=12_700).contains(&r[2])
            && (-12_800..=12_700).contains(&r[3])
            && r[4..].iter().all(|l| (0..=10_000).contains(l));
        if !fits || r[1] > before {
            return false;
        }
        before = r[1];
    }
    true
}

fn query_fits<const W: usize>(join: &Join<W>) -> bool {
    let q = join.query;
    (1..=64).contains(&q.k)
        && (1..=1_024).contains(&q.block)
        && q.radius <= 40_000
        && join.weights.iter().all(|w| (1..=9).contains(w))
        && join.tolerances.iter().all(|t| *t <= 500)
}

fn depth_fits(block: u32, rows: u32, depth: u32) -> bool {
    rows <= 65_535 && depth <= rows && (depth.is_multiple_of(block) || depth == rows)
}

fn held_fits<const W: usize>(join: &Join<W>) -> bool {
    let [p, q] = join.depths;
    let pair_fits = |pair: &Pair| {
        (1..=p).contains(&pair.field) && (1..=q).contains(&pair.trim) && pair.sum <= 179_982
    };
    let held = join.held.pairs();
    join.out as usize + held.len() <= join.query.k as usize
        && held.iter().all(pair_fits)
        && held.windows(2).all(|w| ahead(&w[0], &w[1]))
        && join.held.spare_places_are_zeros()
}

fn mark_fits<const W: usize>(join: &Join<W>) -> bool {
    match join.last {
        0 => join.depths == [0; 2],
        1 => join.depths[0] > 0,
        2 => join.depths[1] > 0,
        _ => false,
    }
}

/// Whether 5 does not refuse the record.
fn record_fits<const W: usize>(join: &Join<W>) -> bool {
    let block = join.query.block;
    let blocks = |depth: u32| u64::from(depth.div_ceil(block));
    query_fits(join)
        && matches!(join.card, 2 | 3)
        && (0..2).all(|i| depth_fits(block, join.rows[i], join.depths[i]))
        && held_fits(join)
        && mark_fits(join)
        && join.joined <= blocks(join.depths[0]) * blocks(join.depths[1])
        && (join.depths == [0; 2] || !join.nothing_qualifies())
}

fn table_fits<const W: usize>(t: &[i32], rows: u32, depth: u32) -> bool {
    t.len().is_multiple_of(W) && t.len() / W == rows as usize && rows_legal::<W>(t, 0, depth)
}

/// Whether none of 5, 4, 6 and 7 refuses the call.
pub fn call_fits<const W: usize>(join: &Join<W>) -> bool {
    record_fits(join)
        && (0..2).all(|i| table_fits::<W>(join.tables[i], join.rows[i], join.depths[i]))
}
