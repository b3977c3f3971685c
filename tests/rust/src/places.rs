//! Shades within their tolerances, by the words alone. Rows are whole rows on one card, a field row and a trim row.
use furzeladle::{Asked, Meaning};

/// a, b and L; on the old card L is 0 everywhere.
type Place = [i32; 3];

/// All places of a row's shade: whole numbers within a tolerance on every coordinate, past the table's limits too.
fn places(row: &[i32], tolerance: u32) -> Vec<Place> {
    let t = tolerance as i32;
    let along = |coordinate: usize| row.get(coordinate).map_or(0..=0, |x| x - t..=x + t);
    let mut all = Vec::new();
    for a in along(2) {
        for b in along(3) {
            all.extend(along(4).map(|lightness| [a, b, lightness]));
        }
    }
    all
}

/// How many pairs of places two rows have.
pub fn pairs_of_places(asked: &Asked) -> u64 {
    let along = |tolerance: u32| 2 * u64::from(tolerance) + 1;
    (along(asked.field_tolerance.0) * along(asked.trim_tolerance.0)).pow(asked.field_card as u32)
}

/// The square of how far apart two places lie.
fn square(p: &Place, q: &Place) -> u64 {
    p.iter().zip(q).map(|(x, y)| u64::from(x.abs_diff(*y)).pow(2)).sum()
}

/// The squares of how far apart the nearest and the farthest two of all places lie.
pub fn nearest_and_farthest(asked: &Asked, x: &[i32], y: &[i32]) -> (u64, u64) {
    let (fields, trims) = (places(x, asked.field_tolerance.0), places(y, asked.trim_tolerance.0));
    let squares = fields.iter().flat_map(|p| trims.iter().map(|q| square(p, q)));
    squares.fold((u64::MAX, 0), |(low, high), square| (low.min(square), high.max(square)))
}

/// Whether two rows are near: surely if all places of their shades lie within the radius, possibly if some do.
pub fn near_by_places(asked: &Asked, x: &[i32], y: &[i32]) -> bool {
    let (fields, trims) = (places(x, asked.field_tolerance.0), places(y, asked.trim_tolerance.0));
    let within = |p: &Place, q: &Place| square(p, q) <= u64::from(asked.query.radius).pow(2);
    match asked.meaning {
        Meaning::Surely => fields.iter().all(|p| trims.iter().all(|q| within(p, q))),
        Meaning::Possibly => fields.iter().any(|p| trims.iter().any(|q| within(p, q))),
    }
}

/// The same by the first and the last place of each along every coordinate, whichever of the two lies higher.
pub fn near_by_ends(asked: &Asked, x: &[i32], y: &[i32]) -> bool {
    let (t, u) = (asked.field_tolerance.0 as i32, asked.trim_tolerance.0 as i32);
    let apart = |(&p, &q): (&i32, &i32)| match asked.meaning {
        Meaning::Surely => ((p + t) - (q - u)).max((q + u) - (p - t)),
        Meaning::Possibly => ((p - t) - (q + u)).max((q - u) - (p + t)).max(0),
    };
    let square: i64 = x[2..].iter().zip(&y[2..]).map(apart).map(|x| i64::from(x).pow(2)).sum();
    square <= i64::from(asked.query.radius).pow(2)
}
