//! One whole query over two tables: opened, read until settled, taken until finished.
use crate::{raw, sys, Asked, FieldRows, FieldTable, Pair, Refusal, Session, TrimRows, TrimTable};

/// A whole square root: the greatest `root` whose square is not above a number, and what is left of it.
#[derive(Clone, Copy, Debug, PartialEq, Eq, Hash)]
pub struct Root {
    /// The root.
    pub root: u64,
    /// The number less the root's square: 0 to twice the root.
    pub rest: u64,
}

/// The whole square root of any number.
///
/// ```
/// use furzeladle::{root, Root};
/// assert_eq!(root(26), Root { root: 5, rest: 1 });
/// ```
#[must_use]
pub fn root(n: u64) -> Root {
    // SAFETY: nothing is lent, and every number has an answer.
    let (root, rest) = unsafe { (sys::furzeladle_root(n), sys::furzeladle_remainder(n)) };
    Root { root, rest }
}

/// A pair of the list, with the pattern numbers of its rows and their squared distance, as the tables have their
/// shades.
#[derive(Clone, Copy, Debug, PartialEq, Eq, Hash)]
pub struct Listed {
    /// The pair: its sum and its two rows.
    pub pair: Pair,
    /// The field row's pattern number.
    pub field_number: u32,
    /// The trim row's pattern number.
    pub trim_number: u32,
    /// The squared distance of the two shades.
    pub squared_distance: u64,
}

impl Listed {
    /// The distance of the two shades in whole hundredths, and what its square leaves of the squared distance.
    #[must_use]
    pub fn distance(&self) -> Root {
        root(self.squared_distance)
    }

    pub(crate) fn of(numbers: &[u64]) -> Listed {
        Listed {
            pair: Pair {
                sum: numbers[0] as u32,
                field: numbers[1] as u32,
                trim: numbers[2] as u32,
            },
            field_number: numbers[3] as u32,
            trim_number: numbers[4] as u32,
            squared_distance: numbers[5],
        }
    }
}

/// The pairs, best first, and what finding them took.
#[derive(Clone, Debug, PartialEq, Eq)]
#[non_exhaustive]
pub struct List {
    /// The pairs, best first.
    pub pairs: Vec<Listed>,
    /// Field rows and trim rows read.
    pub depths: (FieldRows, TrimRows),
    /// Block pairs joined.
    pub joined: u64,
}

impl From<raw::List> for List {
    fn from(list: raw::List) -> List {
        let (field, trim) = list.depths;
        List {
            pairs: list.pairs,
            depths: (FieldRows(field), TrimRows(trim)),
            joined: list.joined,
        }
    }
}

/// The list of a query over plain slices, which are on the old card unless the query says another. Refused by 1, 2, 3,
/// 12, 16, 4, 15, or by 6 or 7 of a row that was read: other rows are not looked at.
///
/// ```
/// use furzeladle::{list, FieldRows, Query, Refusal, TrimRows};
/// let field = [101, 90, 0, 0, 102, 80, 100, 0]; // number, score, a, b of each row
/// let trim = [201, 70, 400, 0, 202, 50, 3, 4];
/// let list = list(Query::new(2).block(1).radius(5), &field, &trim)?;
/// let best = list.pairs[0];
/// assert_eq!((best.pair.sum, best.field_number, best.trim_number), (140, 101, 202));
/// assert_eq!((best.squared_distance, best.distance().root), (25, 5));
/// assert_eq!(list.depths, (FieldRows(2), TrimRows(2)));
/// # Ok::<(), Refusal>(())
/// ```
pub fn list(asked: impl Into<Asked>, field: &[i32], trim: &[i32]) -> Result<List, Refusal> {
    Ok(raw::list(asked, field, trim)?.into())
}

/// The same list as bytes, as the pairing program prints it, k, block and radius alone at its head. Refused as [`list`]
/// is.
pub fn listing(asked: impl Into<Asked>, field: &[i32], trim: &[i32]) -> Result<Vec<u8>, Refusal> {
    Ok(raw::listing(asked, field, trim)?)
}

/// What is asked over two checked tables, each on its own card: two cards are refused by 15, never taken for one.
///
/// ```
/// use furzeladle::{FieldTable, Query, Refusal, TrimTable};
/// let field = b"     2     3\n   101    90      0      0     0\n   102    80      0      0 10000\n";
/// let field = FieldTable::from_file(field)?;
/// let trim = TrimTable::from_file(b"     1     4\n   201    70      3      4 10000\n")?;
/// let query = Query::new(2).radius(5);
/// let list = query.over(&field, &trim).list()?;
/// let numbers: Vec<u32> = list.pairs.iter().map(|listed| listed.field_number).collect();
/// assert_eq!(numbers, [102]); // 101 is as near in a and b, and 10,000 away in L
///
/// let old = TrimTable::from_file(b"     0     2\n")?;
/// assert_eq!(query.over(&field, &old).list(), Err(Refusal::Cards));
/// # Ok::<(), Refusal>(())
/// ```
#[derive(Clone, Copy, Debug)]
#[must_use]
pub struct Over<'a> {
    asked: Asked,
    field: &'a FieldTable,
    trim: &'a TrimTable,
}

impl<'a> Over<'a> {
    pub(crate) fn new(asked: Asked, field: &'a FieldTable, trim: &'a TrimTable) -> Over<'a> {
        let asked = asked.cards(field.card(), trim.card());
        Over { asked, field, trim }
    }

    /// The list. Refused by 1, 2, 3, 12, 16 or 15.
    pub fn list(self) -> Result<List, Refusal> {
        list(self.asked, self.field.numbers(), self.trim.numbers())
    }

    /// The list as bytes, as the pairing program prints it. Refused by 1, 2, 3, 12, 16 or 15.
    pub fn listing(self) -> Result<Vec<u8>, Refusal> {
        listing(self.asked, self.field.numbers(), self.trim.numbers())
    }

    /// A session. Refused by 1, 2, 3, 12, 16 or 15.
    pub fn open(self) -> Result<Session<'a>, Refusal> {
        Session::open(self.asked, self.field, self.trim)
    }
}
