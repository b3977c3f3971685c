//! One whole query over two lent tables: opened, read until settled, taken until finished.
use super::Refusal;
use crate::{sys, Asked, Listed};

/// The pairs, best first, and what finding them took.
#[derive(Clone, Debug, PartialEq, Eq)]
pub struct List {
    /// The pairs, best first.
    pub pairs: Vec<Listed>,
    /// Field rows and trim rows read.
    pub depths: (u32, u32),
    /// Block pairs joined.
    pub joined: u64,
}

type Export<T> = unsafe extern "C" fn(
    *const u32,
    usize,
    *const i32,
    usize,
    *const i32,
    usize,
    *mut T,
    usize,
) -> i32;

/// What an export answers that is lent a query's numbers, two tables and room.
fn ask<T>(
    export: Export<T>,
    asked: Asked,
    field: &[i32],
    trim: &[i32],
    out: &mut [T],
) -> Result<usize, Refusal> {
    let numbers = asked.numbers();
    // SAFETY: references to so many numbers each; `out` is written, and nothing overlaps what is borrowed for that.
    let answer = unsafe {
        export(
            numbers.as_ptr(),
            numbers.len(),
            field.as_ptr(),
            field.len(),
            trim.as_ptr(),
            trim.len(),
            out.as_mut_ptr(),
            out.len(),
        )
    };
    usize::try_from(answer).map_err(|_| Refusal::of(answer))
}

/// The list of a query. Refused by 1, 2, 3, 12, 16, 4, 15, or by 6 or 7 of a row that was read.
pub fn list(asked: impl Into<Asked>, field: &[i32], trim: &[i32]) -> Result<List, Refusal> {
    let mut out = [0; sys::QUERY_SIZE];
    let count = ask(sys::furzeladle_query, asked.into(), field, trim, &mut out)?;
    Ok(List {
        pairs: out[3..].chunks(6).take(count).map(Listed::of).collect(),
        depths: (out[0] as u32, out[1] as u32),
        joined: out[2],
    })
}

/// The same list as bytes, as the pairing program prints it, k, block and radius alone at its head. Refused as [`list`]
/// is.
pub fn listing(asked: impl Into<Asked>, field: &[i32], trim: &[i32]) -> Result<Vec<u8>, Refusal> {
    let mut out = vec![0; sys::LISTING_SIZE];
    let count = ask(sys::furzeladle_listing, asked.into(), field, trim, &mut out)?;
    out.truncate(count);
    Ok(out)
}
