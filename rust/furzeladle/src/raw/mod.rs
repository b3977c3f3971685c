//! The library over plain slices and flat records, refusals by their numbers: for who has slices, for who keeps
//! records, and for tests.
//!
//! All of it is safe, but less of it is a matter of types: a table is any `&[i32]`, four numbers to a row on the old
//! card and five on the new one, a query says which card it is about (the old one where it says nothing), and each call
//! checks whatever it is given. What does not fit is refused by the rules' number.
//!
//! ```
//! use furzeladle::raw::{Refusal, Session};
//! use furzeladle::{Progress, Query, Taken};
//! let field = [101, 90, 0, 0, 102, 80, 100, 0]; // number, score, a, b of each row
//! let trim = [201, 70, 400, 0, 202, 50, 3, 4];
//! let mut session = Session::open(Query::new(1).radius(5), &field, &trim)?;
//! while session.read(&field, &trim)? == Progress::Read {}
//! let Taken::Given(pair) = session.take(&field, &trim)? else { panic!("no pair") };
//! assert_eq!((pair.sum, pair.field, pair.trim), (140, 1, 2));
//! // other tables than at opening
//! assert_eq!(session.read(&field, &[]), Err(Refusal { number: 4, row: 0 }));
//! # Ok::<(), Refusal>(())
//! ```
mod files;
mod query;
mod refusal;
mod rows;
mod session;
pub use files::{check, load};
pub use query::{list, listing, List};
pub use refusal::Refusal;
pub use rows::{check_rows, Rows};
pub use session::Session;
