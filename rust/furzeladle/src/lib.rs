//! Safe Rust over libfurzeladle.a, whose functions are proved: the strict file, the join session and the whole query.
//!
//! ```
//! use furzeladle::{FieldTable, Query, Refusal, TrimTable};
//!
//! fn main() -> Result<(), Refusal> {
//!     let field = FieldTable::from_file(b"     1     1\n   101    90      0      0\n")?;
//!     let trim = TrimTable::from_file(b"     1     2\n   202    50      3      4\n")?;
//!     let list = Query::new(10).radius(5).over(&field, &trim).list()?;
//!     for listed in &list.pairs {
//!         println!("{} {} {}", listed.pair.sum, listed.field_number, listed.trim_number);
//!     }
//!     assert_eq!(list.pairs.len(), 1);
//!     Ok(())
//! }
//! ```
//!
//! - A table is a [`FieldTable`] or a [`TrimTable`]: checked whole, from a strict file's bytes or from numbers. It
//!   knows its shade card.
//! - A [`Query`] says how many pairs are wanted, how many rows are read at a time and how far apart shades may lie; its
//!   methods say the rest ([`Asked`]).
//! - [`Over::list`] and [`Over::listing`] run a query out. A [`Session`] goes step by step, and [`Session::pairs`]
//!   gives the pairs best first, each before the rest is read.
//! - What does not fit is a [`Refusal`].
//! - [`check`], [`load`], [`list`] and [`listing`] take plain slices, and so does [`raw`], which has records and
//!   refusals as numbers too. [`sys`] has the exports as they are.
//!
//! Rows are numbered from 1. Nothing here trusts its input.
//!
//! A shade may be known within a tolerance: [`Query::surely`] and [`Query::possibly`] say what is made of it.
//!
//! A score of 0 means that the pattern is withdrawn: its row is read, shown and checked like any other, but no pair
//! with it qualifies. As scores fall, a table counts as read out once such a row has been read.
#![deny(missing_docs)]
#![warn(clippy::undocumented_unsafe_blocks)]

mod asked;
mod card;
mod list;
pub mod raw;
mod refusal;
mod session;
pub mod sys;
mod table;
mod version;
pub use asked::{Asked, FieldTolerance, FieldWeight, Meaning, Query, TrimTolerance, TrimWeight};
pub use card::{Card, Kind, Table};
pub use list::{list, listing, root, List, Listed, Over, Root};
pub use refusal::Refusal;
pub use session::{Pair, Pairs, Progress, Session, Shown, Taken};
pub use sys::RECORD_SIZE;
pub use table::{
    AnyTable, Field, FieldRows, FieldTable, Row, Side, TableOf, Trim, TrimRows, TrimTable,
};
pub use version::{version, Version};

/// A strict file's bytes, checked alone: its row count. The kind is a [`Kind`], or its number. No row goes with a
/// refusal; [`load`] and [`AnyTable::from_file`] tell it.
///
/// ```
/// use furzeladle::{check, Card, Kind, Refusal, Table};
/// let file = b"     1     1\n   101    90      0    300\n";
/// assert_eq!(check(file, Kind::new(Table::Field, Card::Old)), Ok(1));
/// assert_eq!(check(file, 2), Err(Refusal::Kind));
/// ```
pub fn check(bytes: &[u8], kind: impl Into<i32>) -> Result<u32, Refusal> {
    Ok(raw::check(bytes, kind.into())?)
}

/// A strict file's rows, read into the front of `out`, as many numbers each as their card has: the row count. What is
/// refused changes nothing. [`FieldTable::from_file`] and [`TrimTable::from_file`] make the room by themselves.
///
/// ```
/// use furzeladle::{load, Refusal};
/// let mut rows = [0; 8];
/// assert_eq!(load(b"     1     1\n   101    90      0    300\n", 1, &mut rows), Ok(1));
/// assert_eq!(rows, [101, 90, 0, 300, 0, 0, 0, 0]);
/// ```
pub fn load(bytes: &[u8], kind: impl Into<i32>, out: &mut [i32]) -> Result<u32, Refusal> {
    Ok(raw::load(bytes, kind.into(), out)?)
}
