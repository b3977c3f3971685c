//! Which cases a mode measures: one thing varied around a middle query, or in full every combination.
use crate::measure::Case;
use crate::tables::Shape;
use furzeladle::{Asked, Card, FieldWeight, Query, TrimWeight};

pub const ARCHIVE: (u32, u32) = (38_000, 12_000);
pub const RADII: [u32; 6] = [3, 13, 26, 128, 255, 1_000];
const LENGTHS: [u32; 3] = [1, 10, 64];
const BLOCKS: [u32; 4] = [1, 16, 128, 1_024];
/// Field and trim weights of the cases that have others than 1 and 1.
const WEIGHTS: [(u32, u32); 2] = [(1, 3), (9, 2)];
const GROWTH: [u32; 5] = [6_000, 12_000, 24_000, 48_000, 65_535];
/// Those of them that a short run measures, and the radii of its clustered and adversarial tables.
const FEW_GROWTH: [u32; 3] = [6_000, 24_000, 65_535];
const FEW_RADII: [u32; 2] = [26, 255];
pub const MIDDLE: Query = Query {
    k: 10,
    block: 128,
    radius: 26,
};
/// On the new card, the radii at which as many pairs qualify as at those above: a ball in place of a disc, L over its
/// range. A short run leaves out two of them, and has fewer blocks.
const NEW_RADII: [u32; 6] = [41, 108, 172, 497, 787, 1_957];
const FEW_NEW_RADII: [u32; 4] = [108, 172, 787, 1_957];
const FEW_BLOCKS: [u32; 2] = [1, 16];
const NEW_MIDDLE: Query = Query {
    radius: 172,
    ..MIDDLE
};

pub struct Section {
    pub title: &'static str,
    pub cases: Vec<Case>,
}

fn archive(shape: Shape, asked: impl Into<Asked>) -> Case {
    Case {
        shape,
        rows: ARCHIVE,
        asked: asked.into(),
    }
}

fn radii(shape: Shape, radii: &[u32]) -> Vec<Case> {
    let case = |&radius| archive(shape, Query { radius, ..MIDDLE });
    radii.iter().map(case).collect()
}

/// List lengths and blocks around a middle query, which stands among the radii.
fn lengths_and_blocks(middle: Query, lengths: &[u32], blocks: &[u32]) -> Vec<Case> {
    let lengths = lengths.iter().map(|&k| Query { k, ..middle });
    let blocks = blocks.iter().map(|&block| Query { block, ..middle });
    let others = lengths.chain(blocks).filter(|query| *query != middle);
    others.map(|query| archive(Shape::Uniform, query)).collect()
}

/// Every combination but those of the radii's section.
fn combinations() -> Vec<Case> {
    let mut cases = Vec::new();
    for radius in RADII {
        for k in LENGTHS {
            for block in BLOCKS {
                if (k, block) != (MIDDLE.k, MIDDLE.block) {
                    cases.push(archive(Shape::Uniform, Query { k, block, radius }));
                }
            }
        }
    }
    cases
}

fn growth(middle: Query, sizes: &[u32]) -> Vec<Case> {
    let case = |&rows| Case {
        shape: Shape::Uniform,
        rows: (rows, rows),
        asked: middle.into(),
    };
    sizes.iter().map(case).collect()
}

fn weights() -> Vec<Case> {
    let asked = |&(v, w)| MIDDLE.weights(FieldWeight(v), TrimWeight(w));
    let case = |weights| archive(Shape::Uniform, asked(weights));
    WEIGHTS.iter().map(case).collect()
}

/// Live rows that cannot fill the list: the reading ends with the first withdrawn row of each table.
fn withdrawn(radii_too: bool) -> Vec<Case> {
    let unfilled = Query {
        k: 64,
        radius: 3,
        ..MIDDLE
    };
    let mut cases = vec![archive(Shape::Withdrawn, unfilled)];
    if radii_too {
        cases.extend(radii(Shape::Withdrawn, &RADII));
    }
    cases
}

/// The radii come first: the plot is drawn from them.
pub fn sections(full: bool) -> Vec<Section> {
    let section = |title, cases| Section { title, cases };
    let (others, chosen, sizes) = if full {
        (combinations(), RADII.as_slice(), GROWTH.as_slice())
    } else {
        (
            lengths_and_blocks(MIDDLE, &LENGTHS, &BLOCKS),
            FEW_RADII.as_slice(),
            FEW_GROWTH.as_slice(),
        )
    };
    let mut adversarial = radii(Shape::TrimBelow, chosen);
    adversarial.extend(radii(Shape::Plateau, chosen));
    let mut drifting = radii(Shape::Drifting, chosen);
    drifting.extend(radii(Shape::DriftingApart, chosen));
    vec![
        section("Radius", radii(Shape::Uniform, &RADII)),
        section("List length and block", others),
        section("Clustered shades", radii(Shape::Clustered, chosen)),
        section("Adversarial scores", adversarial),
        section(
            "Growth at a fixed share of qualifying pairs",
            growth(MIDDLE, sizes),
        ),
        section("Weights", weights()),
        section("Withdrawn rows", withdrawn(full)),
        section("Drifting shades", drifting),
    ]
}

fn new_drifting() -> Vec<Case> {
    [Shape::Drifting, Shape::DriftingApart]
        .map(|shape| archive(shape, NEW_MIDDLE))
        .to_vec()
}

/// The group on the new card.
pub fn new_card(full: bool) -> Vec<Section> {
    let section = |title, mut cases: Vec<Case>| {
        cases
            .iter_mut()
            .for_each(|case| case.asked = case.asked.on(Card::New));
        Section { title, cases }
    };
    if full {
        return vec![
            section("New card, radius", radii(Shape::Uniform, &NEW_RADII)),
            section(
                "New card, list length and block",
                lengths_and_blocks(NEW_MIDDLE, &LENGTHS, &BLOCKS),
            ),
            section(
                "New card, clustered shades",
                radii(Shape::Clustered, &NEW_RADII),
            ),
            section("New card, growth", growth(NEW_MIDDLE, &GROWTH)),
            section("New card, drifting shades", new_drifting()),
        ];
    }
    vec![
        section("New card, radius", radii(Shape::Uniform, &FEW_NEW_RADII)),
        section(
            "New card, block",
            lengths_and_blocks(NEW_MIDDLE, &[], &FEW_BLOCKS),
        ),
        section("New card, growth", growth(NEW_MIDDLE, &GROWTH[..1])),
        section("New card, drifting shades", new_drifting()),
    ]
}
