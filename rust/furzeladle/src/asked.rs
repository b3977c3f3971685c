//! What a list is asked for.
use crate::sys::QUERY_ALL;
use crate::{Card, FieldTable, Over, Table, TrimTable};

/// List length (1 to 64), block size in rows (1 to 1,024), radius (0 to 40,000).
///
/// These three stay three: whatever requests add stands in [`Asked`], which a query turns into wherever something is
/// asked, and is said by methods, each with its default.
///
/// ```
/// use furzeladle::{FieldWeight, Query, TrimWeight};
/// let query = Query::new(10).radius(128);
/// assert_eq!(query, Query { k: 10, block: 64, radius: 128 });
/// let asked = query.weights(FieldWeight(1), TrimWeight(3)).block(16);
/// assert_eq!((asked.query.block, asked.trim_weight), (16, TrimWeight(3)));
/// ```
#[derive(Clone, Copy, Debug, PartialEq, Eq, Hash)]
pub struct Query {
    /// How many pairs are wanted at most.
    pub k: u32,
    /// How many rows are read at a time.
    pub block: u32,
    /// How far apart two shades may lie, in hundredths.
    pub radius: u32,
}

/// What a field row's score is multiplied by in a pair's sum, 1 to 9.
#[derive(Clone, Copy, Debug, PartialEq, Eq, Hash)]
pub struct FieldWeight(pub u32);

/// What a trim row's score is multiplied by in a pair's sum, 1 to 9.
#[derive(Clone, Copy, Debug, PartialEq, Eq, Hash)]
pub struct TrimWeight(pub u32);

/// How far a field row's shade may lie from where its table has it, in every coordinate, 0 to 500.
#[derive(Clone, Copy, Debug, Default, PartialEq, Eq, Hash)]
pub struct FieldTolerance(pub u32);

/// How far a trim row's shade may lie from where its table has it, in every coordinate, 0 to 500.
#[derive(Clone, Copy, Debug, Default, PartialEq, Eq, Hash)]
pub struct TrimTolerance(pub u32);

/// Which places of two shades within their tolerances must lie within the radius for a pair to qualify.
#[derive(Clone, Copy, Debug, Default, PartialEq, Eq, Hash)]
pub enum Meaning {
    /// Some of them.
    #[default]
    Possibly = 0,
    /// All of them.
    Surely = 1,
}

/// Everything that a list is asked for: a query, and what was added since, each with its default. A query alone will do
/// wherever this is wanted; `Query::weights`, `Query::on`, `Query::surely` and their like say the rest.
#[derive(Clone, Copy, Debug, PartialEq, Eq, Hash)]
#[non_exhaustive]
pub struct Asked {
    /// List length, block and radius.
    pub query: Query,
    /// 1 where nothing is said.
    pub field_weight: FieldWeight,
    /// 1 where nothing is said.
    pub trim_weight: TrimWeight,
    /// The old one where nothing is said. A checked table brings its own.
    pub field_card: Card,
    /// The old one where nothing is said. A checked table brings its own.
    pub trim_card: Card,
    /// 0 where nothing is said.
    pub field_tolerance: FieldTolerance,
    /// 0 where nothing is said.
    pub trim_tolerance: TrimTolerance,
    /// What is made of the tolerances; of 0 and 0 it is all the same.
    pub meaning: Meaning,
}

impl Query {
    /// The block where none is said: over the benchmark's radii the one that does best (docs/BENCHMARKS.md).
    pub const BLOCK: u32 = 64;
    /// The radius where none is said.
    pub const RADIUS: u32 = 255;

    /// So many pairs, in blocks of [`Query::BLOCK`] rows, within [`Query::RADIUS`].
    #[must_use]
    pub const fn new(k: u32) -> Query {
        Query {
            k,
            block: Query::BLOCK,
            radius: Query::RADIUS,
        }
    }

    /// The same query, so many rows read at a time.
    #[must_use]
    pub const fn block(self, block: u32) -> Query {
        Query { block, ..self }
    }

    /// The same query within this radius.
    #[must_use]
    pub const fn radius(self, radius: u32) -> Query {
        Query { radius, ..self }
    }

    /// The same query with these weights.
    #[must_use]
    pub fn weights(self, field: FieldWeight, trim: TrimWeight) -> Asked {
        Asked::from(self).weights(field, trim)
    }

    /// The same query over tables on this card.
    ///
    /// ```
    /// use furzeladle::{list, Card, Query};
    /// let field = [101, 90, 0, 0, 0, 102, 80, 0, 0, 10_000]; // number, score, a, b, L of each row
    /// let trim = [201, 70, 3, 4, 10_000];
    /// let query = Query { k: 2, block: 1, radius: 5 };
    /// let pairs = list(query.on(Card::New), &field, &trim).unwrap().pairs;
    /// assert_eq!((pairs.len(), pairs[0].field_number, pairs[0].squared_distance), (1, 102, 25));
    /// ```
    #[must_use]
    pub fn on(self, card: Card) -> Asked {
        Asked::from(self).on(card)
    }

    /// The same query over two checked tables, on their cards.
    pub fn over<'a>(self, field: &'a FieldTable, trim: &'a TrimTable) -> Over<'a> {
        Asked::from(self).over(field, trim)
    }

    /// The same query for pairs that qualify wherever their shades lie within these tolerances.
    ///
    /// ```
    /// use furzeladle::{list, FieldTolerance, Query, TrimTolerance};
    /// let field = [101, 90, 0, 0]; // number, score, a, b
    /// let trim = [201, 70, 3, 4];
    /// let query = Query { k: 1, block: 1, radius: 5 };
    /// let (u, v) = (FieldTolerance(1), TrimTolerance(1));
    /// // 5 and 6 apart at most, 1 and 2 at least
    /// assert_eq!(list(query.surely(u, v), &field, &trim)?.pairs.len(), 0);
    /// assert_eq!(list(query.possibly(u, v), &field, &trim)?.pairs.len(), 1);
    /// # Ok::<(), furzeladle::Refusal>(())
    /// ```
    #[must_use]
    pub fn surely(self, field: FieldTolerance, trim: TrimTolerance) -> Asked {
        Asked::from(self).surely(field, trim)
    }

    /// The same query for pairs that qualify somewhere within these tolerances.
    #[must_use]
    pub fn possibly(self, field: FieldTolerance, trim: TrimTolerance) -> Asked {
        Asked::from(self).possibly(field, trim)
    }
}

/// Ten pairs.
impl Default for Query {
    fn default() -> Query {
        Query::new(10)
    }
}

impl Asked {
    /// The same, so many rows read at a time.
    #[must_use]
    pub fn block(self, block: u32) -> Asked {
        let query = self.query.block(block);
        Asked { query, ..self }
    }

    /// The same within this radius.
    #[must_use]
    pub fn radius(self, radius: u32) -> Asked {
        let query = self.query.radius(radius);
        Asked { query, ..self }
    }

    /// The same with these weights.
    #[must_use]
    pub fn weights(self, field: FieldWeight, trim: TrimWeight) -> Asked {
        Asked {
            field_weight: field,
            trim_weight: trim,
            ..self
        }
    }

    /// The same over tables on this card.
    #[must_use]
    pub fn on(self, card: Card) -> Asked {
        self.cards(card, card)
    }

    /// The same over tables each on its own card. Two different ones are refused by 15.
    #[must_use]
    pub fn cards(self, field: Card, trim: Card) -> Asked {
        Asked {
            field_card: field,
            trim_card: trim,
            ..self
        }
    }

    /// The same over two checked tables, on their cards.
    pub fn over<'a>(self, field: &'a FieldTable, trim: &'a TrimTable) -> Over<'a> {
        Over::new(self, field, trim)
    }

    /// The same for pairs that qualify wherever their shades lie within these tolerances.
    #[must_use]
    pub fn surely(self, field: FieldTolerance, trim: TrimTolerance) -> Asked {
        self.tolerating(field, trim, Meaning::Surely)
    }

    /// The same for pairs that qualify somewhere within these tolerances.
    #[must_use]
    pub fn possibly(self, field: FieldTolerance, trim: TrimTolerance) -> Asked {
        self.tolerating(field, trim, Meaning::Possibly)
    }

    /// The same with these tolerances, and this made of them.
    #[must_use]
    pub fn tolerating(self, field: FieldTolerance, trim: TrimTolerance, meaning: Meaning) -> Asked {
        Asked {
            field_tolerance: field,
            trim_tolerance: trim,
            meaning,
            ..self
        }
    }

    /// The numbers that the library is lent for it, in their order.
    pub(crate) fn numbers(self) -> [u32; QUERY_ALL] {
        let Query { k, block, radius } = self.query;
        let (v, w) = (self.field_weight.0, self.trim_weight.0);
        let field_kind = Table::Field.kind(self.field_card) as u32;
        let trim_kind = Table::Trim.kind(self.trim_card) as u32;
        let (t, u) = (self.field_tolerance.0, self.trim_tolerance.0);
        let meaning = self.meaning as u32;
        [k, block, radius, v, w, field_kind, trim_kind, t, u, meaning]
    }
}

impl From<Query> for Asked {
    fn from(query: Query) -> Asked {
        Asked {
            query,
            field_weight: FieldWeight(1),
            trim_weight: TrimWeight(1),
            field_card: Card::Old,
            trim_card: Card::Old,
            field_tolerance: FieldTolerance(0),
            trim_tolerance: TrimTolerance(0),
            meaning: Meaning::Possibly,
        }
    }
}

/// Ten pairs.
impl Default for Asked {
    fn default() -> Asked {
        Query::default().into()
    }
}
