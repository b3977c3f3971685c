//! The exports of libfurzeladle.a as they are, with the sizes and places of include/furzeladle.h.
//!
//! Names and numbers are the header's, less its prefix; what each function does and answers is said there. A slice is a
//! pointer and a count of elements. The pointer is never null, also at length 0, and what a call writes overlaps
//! nothing else that is lent to it. [`raw`](crate::raw) has those over slices as safe functions.

/// A query's numbers at least: k, block and radius.
pub const QUERY_LEAST: usize = 3;
/// A query's numbers in all.
pub const QUERY_ALL: usize = 10;
/// A record's numbers.
pub const RECORD_SIZE: usize = 210;
/// The numbers of a pair: sum, field row, trim row.
pub const PAIR_SIZE: usize = 3;
/// The numbers of a place: table, first row, how many.
pub const PLACE_SIZE: usize = 3;
/// The numbers that a whole query wants lent, whatever k is.
pub const QUERY_SIZE: usize = 387;
/// The bytes that a listing wants lent, whatever k is.
pub const LISTING_SIZE: usize = 2_668;
/// A row's numbers on the old card.
pub const OLD_ROW: usize = 4;
/// A row's numbers on the new card.
pub const NEW_ROW: usize = 5;
/// A row's bytes in a strict file of the old card.
pub const OLD_ROW_BYTES: usize = 27;
/// A row's bytes in a strict file of the new card.
pub const NEW_ROW_BYTES: usize = 33;
/// The bytes of a strict file's header.
pub const HEADER_BYTES: usize = 13;
/// The rows of the longest table.
pub const MOST_ROWS: usize = 65_535;

/// Where a record has k.
pub const AT_K: usize = 0;
/// Where a record has the field table's row count.
pub const AT_FIELD_ROWS: usize = 3;
/// Where a record has the trim table's row count.
pub const AT_TRIM_ROWS: usize = 4;
/// Where a record has how many field rows are read.
pub const AT_FIELD_DEPTH: usize = 5;
/// Where a record has how many trim rows are read.
pub const AT_TRIM_DEPTH: usize = 6;
/// Where a record has the table read last: 0 none, 1 field, 2 trim.
pub const AT_LAST: usize = 7;
/// Where a record has how many pairs are out.
pub const AT_OUT: usize = 8;
/// Where a record has how many pairs are held.
pub const AT_HELD: usize = 9;
/// Where a record has how many block pairs were joined.
pub const AT_JOINED: usize = 10;
/// Where a record has that count's upper 32 bits.
pub const AT_JOINED_HIGH: usize = 11;
/// Where a record has the first of its pair places.
pub const AT_PAIRS: usize = 12;
/// Where a record has the field weight, the first number that was added behind the pair places.
pub const AT_FIELD_WEIGHT: usize = 204;
/// Where a record has the card of both tables.
pub const AT_CARD: usize = 206;

extern "C" {
    /// A strict file, checked alone.
    pub fn furzeladle_check(bytes: *const u8, len: usize, kind: i32) -> i32;

    /// A strict file, read into the front of `out`.
    pub fn furzeladle_load(
        bytes: *const u8,
        len: usize,
        kind: i32,
        out: *mut i32,
        room: usize,
    ) -> i32;

    /// Opens a session of a query.
    pub fn furzeladle_open(
        query: *const u32,
        query_len: usize,
        f: *const i32,
        f_len: usize,
        t: *const i32,
        t_len: usize,
        session: *mut u32,
        session_len: usize,
    ) -> i32;

    /// Reads one block.
    pub fn furzeladle_read(
        f: *const i32,
        f_len: usize,
        t: *const i32,
        t_len: usize,
        session: *mut u32,
        session_len: usize,
    ) -> i32;

    /// Takes the next pair.
    pub fn furzeladle_take(
        f: *const i32,
        f_len: usize,
        t: *const i32,
        t_len: usize,
        session: *mut u32,
        session_len: usize,
        pair: *mut u32,
        pair_len: usize,
    ) -> i32;

    /// Shows the rows last read.
    pub fn furzeladle_show(
        f: *const i32,
        f_len: usize,
        t: *const i32,
        t_len: usize,
        session: *const u32,
        session_len: usize,
        place: *mut u32,
        place_len: usize,
    ) -> i32;

    /// One whole query, its answer as numbers.
    pub fn furzeladle_query(
        query: *const u32,
        query_len: usize,
        f: *const i32,
        f_len: usize,
        t: *const i32,
        t_len: usize,
        out: *mut u64,
        out_len: usize,
    ) -> i32;

    /// One whole query, its answer as the listing's bytes.
    pub fn furzeladle_listing(
        query: *const u32,
        query_len: usize,
        f: *const i32,
        f_len: usize,
        t: *const i32,
        t_len: usize,
        out: *mut u8,
        out_len: usize,
    ) -> i32;

    /// The whole square root of a number.
    pub fn furzeladle_root(n: u64) -> u64;

    /// What the square of that root leaves of the number.
    pub fn furzeladle_remainder(n: u64) -> u64;

    /// The library's version: 10,000 × major + 100 × minor + patch.
    pub fn furzeladle_version() -> u32;
}
