//! The tables that are joined, always the same ones from the same seed.
use furzeladle::{Asked, Card};
use furzeladle_tests::cases::Dice;

/// Lowest and highest a, b and, on the new card, L.
const RANGES: [(i32, i32); 3] = [(-12_800, 12_700), (-12_800, 12_700), (0, 10_000)];
const CLUSTERS: usize = 40;
/// How far a shade may lie from its middle, on each axis: three throws of this, added.
const REACH: i32 = 400;

/// How shades and scores are spread.
#[derive(Clone, Copy, Debug, PartialEq, Eq)]
pub enum Shape {
    /// Shades uniform over their card, scores over their range.
    Uniform,
    /// Shades around 40 places that both tables share.
    Clustered,
    /// Uniform shades; every trim score is below every field score.
    TrimBelow,
    /// Uniform shades; all scores are equal.
    Plateau,
    /// As uniform; the last tenth of each table is withdrawn.
    Withdrawn,
    /// Shades go from one corner of their card to the other as scores fall, the same way in both tables.
    Drifting,
    /// The same, the trim table's the other way.
    DriftingApart,
}

impl Shape {
    pub fn name(self) -> &'static str {
        match self {
            Shape::Uniform => "uniform",
            Shape::Clustered => "clustered",
            Shape::TrimBelow => "trim below field",
            Shape::Plateau => "plateau",
            Shape::Withdrawn => "a tenth withdrawn",
            Shape::Drifting => "drifting",
            Shape::DriftingApart => "drifting apart",
        }
    }

    /// Lowest and highest score of the field table, then of the trim table.
    fn scores(self) -> [(i32, i32); 2] {
        match self {
            Shape::TrimBelow => [(5_000, 9_999), (0, 4_999)],
            Shape::Plateau => [(5_000, 5_000); 2],
            _ => [(0, 9_999); 2],
        }
    }
}

pub struct Tables {
    pub field: Vec<i32>,
    pub trim: Vec<i32>,
}

/// Two tables, and their live rows with weighted scores, for those who know neither weights nor withdrawn rows. These
/// are made outside the timing: withdrawn rows stand last, so that the live ones are a table's front.
pub struct Weighed {
    pub scores: Tables,
    pub worth: Tables,
}

impl Weighed {
    pub fn new(asked: Asked, scores: Tables) -> Weighed {
        let wide = asked.field_card.width();
        let worth = Tables {
            field: times(&scores.field, wide, asked.field_weight.0),
            trim: times(&scores.trim, wide, asked.trim_weight.0),
        };
        Weighed { scores, worth }
    }
}

/// The live rows of a table with their scores multiplied; a row is so many numbers wide.
fn times(t: &[i32], wide: usize, weight: u32) -> Vec<i32> {
    let live = t.chunks_exact(wide).take_while(|row| row[1] > 0).count();
    let mut t = t[..wide * live].to_vec();
    t.chunks_exact_mut(wide)
        .for_each(|row| row[1] *= weight as i32);
    t
}

/// A shade: as many of these as its card has.
type Place = [i32; 3];

fn anywhere(dice: &mut Dice, ranges: &[(i32, i32)]) -> Place {
    let mut place = [0; 3];
    for (axis, &(low, high)) in place.iter_mut().zip(ranges) {
        *axis = dice.between(low, high);
    }
    place
}

fn around(dice: &mut Dice, ranges: &[(i32, i32)], middle: Place) -> Place {
    let mut place = middle;
    for (axis, &(low, high)) in place.iter_mut().zip(ranges) {
        let off: i32 = (0..3).map(|_| dice.between(-REACH, REACH)).sum();
        *axis = (*axis + off).clamp(low, high);
    }
    place
}

/// The middle of the shades that drift with scores: from one corner to the other, and all around it within the card.
fn along(ranges: &[(i32, i32)], score: i32) -> Place {
    let mut place = [0; 3];
    for (axis, &(low, high)) in place.iter_mut().zip(ranges) {
        let (low, high) = (low + 3 * REACH, high - 3 * REACH);
        *axis = low + (high - low) * score / 9_999;
    }
    place
}

/// A legal table; a row's shade goes by its score.
fn table(
    dice: &mut Dice,
    rows: u32,
    (low, high): (i32, i32),
    coordinates: usize,
    place: impl Fn(&mut Dice, i32) -> Place,
) -> Vec<i32> {
    let mut scores: Vec<i32> = (0..rows).map(|_| dice.between(low, high)).collect();
    scores.sort_unstable_by_key(|score| -score);
    let mut numbers = Vec::with_capacity((2 + coordinates) * rows as usize);
    for (i, score) in scores.into_iter().enumerate() {
        numbers.extend([i as i32 + 1, score]);
        numbers.extend(&place(dice, score)[..coordinates]);
    }
    numbers
}

/// Withdraws the last tenth of a table.
fn withdraw(t: &mut [i32], wide: usize) {
    let rows = t.len() / wide;
    t.chunks_exact_mut(wide)
        .skip(rows - rows / 10)
        .for_each(|row| row[1] = 0);
}

pub fn tables(shape: Shape, card: Card, (m, n): (u32, u32), seed: u64) -> Tables {
    let mut dice = Dice::new(seed);
    let ranges = &RANGES[..card.width() - 2];
    let clusters = if shape == Shape::Clustered {
        CLUSTERS
    } else {
        0
    };
    let middles: Vec<Place> = (0..clusters).map(|_| anywhere(&mut dice, ranges)).collect();
    let place = |dice: &mut Dice, score: i32| match shape {
        Shape::Clustered => {
            let middle = dice.pick(&middles);
            around(dice, ranges, middle)
        }
        Shape::Drifting | Shape::DriftingApart => around(dice, ranges, along(ranges, score)),
        _ => anywhere(dice, ranges),
    };
    let trim_place = |dice: &mut Dice, score: i32| match shape {
        Shape::DriftingApart => place(dice, 9_999 - score),
        _ => place(dice, score),
    };
    let [of_field, of_trim] = shape.scores();
    let mut field = table(&mut dice, m, of_field, ranges.len(), place);
    let mut trim = table(&mut dice, n, of_trim, ranges.len(), trim_place);
    if shape == Shape::Withdrawn {
        withdraw(&mut field, card.width());
        withdraw(&mut trim, card.width());
    }
    Tables { field, trim }
}
