//! Seeded tables on both cards: ties, plateaus, withdrawn rows, empty tables, extreme shades. Seeded queries, weighted
//! and not, with tolerances and without. Sessions over withdrawn rows by hand.
use crate::model::{wide, Reach};
use furzeladle::{Asked, Card, FieldTolerance, FieldWeight, Meaning, Query, TrimTolerance, TrimWeight};

/// A small generator, always the same numbers from the same seed.
pub struct Dice(u64);

impl Dice {
    pub fn new(seed: u64) -> Dice {
        Dice(seed.wrapping_mul(0x9e37_79b9_7f4a_7c15) | 1)
    }

    pub fn below(&mut self, n: u32) -> u32 {
        self.0 ^= self.0 << 13;
        self.0 ^= self.0 >> 7;
        self.0 ^= self.0 << 17;
        ((self.0 >> 32) % u64::from(n)) as u32
    }

    pub fn between(&mut self, low: i32, high: i32) -> i32 {
        low + self.below((high - low + 1) as u32) as i32
    }

    pub fn one_in(&mut self, n: u32) -> bool {
        self.below(n) == 0
    }

    pub fn pick<T: Copy>(&mut self, of: &[T]) -> T {
        of[self.below(of.len() as u32) as usize]
    }
}

/// How scores and shades are spread.
#[derive(Clone, Copy)]
pub struct Spread {
    pub top: i32,
    pub step: u32,
    pub plateau: bool,
    pub shades: i32,
    pub extreme: bool,
    /// How much a, or L where it alone tells shades apart, grows from row to row: rows of like scores are of like shades.
    pub drift: i32,
    /// None on the old card.
    pub light: Option<Light>,
}

/// How L is spread: around where, and whether it alone tells shades apart.
#[derive(Clone, Copy)]
pub struct Light {
    pub ground: i32,
    pub alone: bool,
}

impl Light {
    fn of(dice: &mut Dice) -> Light {
        Light { ground: dice.pick(&[0, 5_000, 10_000]), alone: dice.one_in(3) }
    }
}

/// One of the two.
pub fn card(dice: &mut Dice) -> Card {
    dice.pick(&[Card::Old, Card::New])
}

impl Spread {
    pub fn of(dice: &mut Dice, card: Card) -> Spread {
        Spread {
            top: dice.pick(&[1, 1, 3, 20, 400, 9_999]),
            step: dice.pick(&[1, 2, 5, 60]),
            plateau: dice.one_in(3),
            shades: dice.pick(&[0, 1, 4, 12, 60]),
            extreme: dice.one_in(6),
            drift: dice.pick(&[0, 0, 0, 0, 0, 1, 2, 9]),
            light: (card == Card::New).then(|| Light::of(dice)),
        }
    }

    /// A shade's a or b.
    fn shade(&self, dice: &mut Dice) -> i32 {
        if self.light.is_some_and(|light| light.alone) {
            return 0;
        }
        if self.extreme {
            return dice.pick(&[-12_800, 12_700, 0]);
        }
        dice.between(-self.shades, self.shades)
    }

    /// What row i + 1 has more of a and of L than the first.
    fn drifted(&self, i: u32) -> [i32; 2] {
        let by = self.drift.saturating_mul(i as i32).min(12_700 + 12_800);
        if self.light.is_some_and(|light| light.alone) {
            [0, by]
        } else {
            [by, 0]
        }
    }

    /// Its L, on the new card.
    fn lightness(&self, dice: &mut Dice) -> Option<i32> {
        let light = self.light?;
        if self.extreme {
            return Some(dice.pick(&[0, 10_000, 5_000]));
        }
        Some((light.ground + dice.between(-self.shades, self.shades)).clamp(0, 10_000))
    }
}

/// A legal table of live rows.
pub fn table(dice: &mut Dice, rows: u32, spread: Spread) -> Vec<i32> {
    let mut score = spread.top;
    let mut t = Vec::new();
    for i in 0..rows {
        if i > 0 && !(spread.plateau && i > 2) {
            score -= dice.below(spread.step + 1) as i32;
        }
        score = score.max(1);
        let pattern = dice.pick(&[1, 999_999, dice_pattern(i)]);
        let (a, b) = (spread.shade(dice), spread.shade(dice));
        let [along_a, along_l] = spread.drifted(i);
        t.extend([pattern, score, (a + along_a).min(12_700), b]);
        t.extend(spread.lightness(dice).map(|lightness| (lightness + along_l).min(10_000)));
    }
    t
}

fn dice_pattern(i: u32) -> i32 {
    i as i32 % 999_999 + 1
}

/// Often withdraws rows of a table on a card: all, all but the first, the last ones.
pub fn withdraw(dice: &mut Dice, card: Card, t: &mut [i32]) {
    let rows = (t.len() / wide(card)) as u32;
    let live = match dice.below(16) {
        0 => 0,
        1 => 1,
        2 | 3 => dice.below(rows + 1),
        4 | 5 => rows.saturating_sub(1 + dice.below(3)),
        _ => return,
    };
    t.chunks_mut(wide(card)).skip(live as usize).for_each(|row| row[1] = 0);
}

/// A table of these scores in one shade, on the old card.
pub fn scored(scores: &[i32]) -> Vec<i32> {
    scored_on(Card::Old, scores)
}

/// The same on a card.
pub fn scored_on(card: Card, scores: &[i32]) -> Vec<i32> {
    (1..).zip(scores).flat_map(|(i, &score)| [i, score, 0, 0, 77].into_iter().take(wide(card))).collect()
}

/// A session over two tables of these scores in one shade, read until settled and taken until finished.
pub struct ByHand {
    pub field: &'static [i32],
    pub trim: &'static [i32],
    pub k: u32,
    pub block: u32,
    pub sums: &'static [u32],
    pub depths: (u32, u32),
    pub joined: u64,
}

impl ByHand {
    pub fn query(&self) -> Query {
        Query { k: self.k, block: self.block, radius: 0 }
    }
}

type Scores = (&'static [i32], &'static [i32]);

const fn by_hand(
    (field, trim): Scores,
    (k, block): (u32, u32),
    sums: &'static [u32],
    depths: (u32, u32),
    joined: u64,
) -> ByHand {
    ByHand { field, trim, k, block, sums, depths, joined }
}

pub const WITHDRAWN: [ByHand; 20] = [
    // a first field row, and no trim is read; without trim rows nothing is
    by_hand((&[0], &[7, 6]), (1, 1), &[], (1, 0), 0),
    by_hand((&[0, 0, 0], &[7, 6]), (2, 2), &[], (2, 0), 0),
    by_hand((&[0, 0, 0], &[0, 0, 0]), (2, 2), &[], (2, 0), 0),
    by_hand((&[0, 0, 0], &[0, 0, 0]), (64, 1_024), &[], (3, 0), 0),
    by_hand((&[0, 0], &[]), (2, 1), &[], (0, 0), 0),
    by_hand((&[], &[0, 0]), (2, 1), &[], (0, 0), 0),
    // a first trim row: its block is joined
    by_hand((&[9, 8, 7], &[0, 0, 0]), (2, 2), &[], (2, 2), 1),
    by_hand((&[9], &[0]), (1, 1), &[], (1, 1), 1),
    // in the middle of a block, the rest of which counts in the depth
    by_hand((&[9, 8, 0, 0, 0], &[7, 0, 0, 0]), (4, 3), &[16, 15], (3, 3), 1),
    by_hand((&[9, 8, 0, 0, 0], &[7, 6, 5]), (4, 3), &[16, 15, 15, 14], (3, 3), 1),
    by_hand((&[9, 8, 7, 0, 0], &[2, 1, 0]), (64, 2), &[11, 10, 10, 9, 9, 8], (4, 3), 4),
    // a second block that begins with one: joined while the list has room, skipped when it is full
    by_hand((&[9, 8, 0, 0], &[7, 6, 5]), (64, 2), &[16, 15, 15, 14, 14, 13], (4, 3), 4),
    by_hand((&[9, 8, 0, 0], &[7, 6, 5]), (4, 2), &[16, 15, 15, 14], (4, 3), 2),
    // the other table goes on alone
    by_hand((&[9, 0, 0, 0], &[7, 6, 5, 4]), (64, 1), &[16, 15, 14, 13], (2, 4), 8),
    by_hand((&[9, 8, 7, 6], &[7, 0, 0, 0]), (64, 1), &[16, 15, 14, 13], (4, 2), 8),
    // also where the table that is read out has dropped less
    by_hand((&[2, 0, 0, 0], &[9, 5, 4, 3]), (64, 1), &[11, 7, 6, 5], (2, 4), 8),
    by_hand((&[9, 5, 4, 3], &[2, 0, 0, 0]), (64, 1), &[11, 7, 6, 5], (4, 2), 8),
    // the ceiling has no part of a table that is read out: it is 4 at the end, not 9
    by_hand((&[3, 0, 0], &[9, 1, 1, 1]), (2, 1), &[12, 4], (2, 2), 3),
    by_hand((&[9, 1, 1, 1], &[3, 0, 0]), (2, 1), &[12, 4], (2, 2), 3),
    // the list is full before a withdrawn row is read
    by_hand((&[9, 0, 0], &[7, 0, 0]), (1, 1), &[16], (1, 1), 1),
];

/// A query in range, small numbers being likelier.
pub fn query(dice: &mut Dice) -> Query {
    Query {
        k: dice.pick(&[1, 1, 2, 3, 5, 8, 17, 64]),
        block: dice.pick(&[1, 1, 2, 3, 4, 7, 16, 1_024]),
        radius: dice.pick(&[0, 1, 2, 5, 13, 40, 25_500, 40_000]),
    }
}

/// A query in range on a card, with weights and tolerances.
pub fn asked(dice: &mut Dice, card: Card) -> Asked {
    let asked = weighted(dice, card);
    tolerating(dice, asked)
}

/// A query in range on a card, and its weights: often 1 and 1, often 9 and 9, else small ones, which tie more, or any.
pub fn weighted(dice: &mut Dice, card: Card) -> Asked {
    let query = query(dice);
    let [field, trim] = match dice.below(8) {
        0..=2 => [1, 1],
        3 | 4 => [9, 9],
        5 | 6 => [(); 2].map(|()| 1 + dice.below(3)),
        _ => [(); 2].map(|()| 1 + dice.below(9)),
    };
    query.weights(FieldWeight(field), TrimWeight(trim)).on(card)
}

/// The same with tolerances: often none, often small ones, as the shades are, now and then the greatest, or any. Where
/// not even equal shades would surely be near, the radius mostly grows to let them.
pub fn tolerating(dice: &mut Dice, asked: Asked) -> Asked {
    let [field, trim] = match dice.below(16) {
        0..=6 => [0, 0],
        7..=10 => [(); 2].map(|()| dice.below(3)),
        11..=13 => [(); 2].map(|()| dice.below(8)),
        14 => [500, 500],
        _ => [(); 2].map(|()| dice.below(501)),
    };
    let meaning = dice.pick(&[Meaning::Possibly, Meaning::Surely]);
    let mut asked = asked.tolerating(FieldTolerance(field), TrimTolerance(trim), meaning);
    if Reach::from(asked).meets_nothing(asked.field_card as u32) && !dice.one_in(4) {
        asked.query.radius += 2 * (field + trim);
    }
    asked
}

/// Scores times the other table's weight, where that is legal: sums that would tie without weights tie with them, and
/// others of the new scores no longer do.
pub fn tie_by_weights(asked: Asked, field: &mut [i32], trim: &mut [i32]) {
    let wide = wide(asked.field_card);
    for (t, weight) in [(field, asked.trim_weight.0), (trim, asked.field_weight.0)] {
        if t.get(1).is_some_and(|top| top * weight as i32 <= 9_999) {
            t.chunks_mut(wide).for_each(|row| row[1] *= weight as i32);
        }
    }
}
