//! One call of a settled session over tables of one row: what is left when nothing is to be read is the record's handling.
use crate::blockwise::{Checks, Join};
use crate::clock;
use furzeladle::raw::Session;
use furzeladle::{Progress, Query};
use std::hint::black_box;

const CALLS: u32 = 200_000;
const ROUNDS: usize = 11;
const ROW: [i32; 4] = [1, 10, 0, 0];
const QUERY: Query = Query {
    k: 64,
    block: 1,
    radius: 0,
};
/// The record's size in bytes.
const RECORD: usize = 840;

/// Nanoseconds of one of many calls, the least of several rounds.
fn ns_a_call(mut call: impl FnMut()) -> f64 {
    let round = |_| clock::ms(|| (0..CALLS).for_each(|_| call())) * 1e6 / f64::from(CALLS);
    (0..ROUNDS).map(round).fold(f64::INFINITY, f64::min)
}

pub fn run() {
    let mut ours = Session::open(QUERY, &ROW, &ROW).unwrap();
    while ours.read(&ROW, &ROW) == Ok(Progress::Read) {}
    let mut plain = Join::<4>::open(QUERY.into(), &ROW, &ROW, Checks::EveryCall);
    while plain.read() == Some(true) {}
    let (from, mut to) = ([1u8; RECORD], [0u8; RECORD]);
    let library = ns_a_call(|| {
        black_box(ours.read(black_box(&ROW), black_box(&ROW))).unwrap();
    });
    let same = ns_a_call(|| {
        black_box(black_box(&mut plain).read()).unwrap();
    });
    let copy = ns_a_call(|| {
        to.copy_from_slice(black_box(&from));
        black_box(&mut to);
    });
    println!("| Library, ns | Plain Rust, same checks, ns | A copy of the record, ns |");
    println!("|---|---|---|");
    println!("| {library:.0} | {same:.0} | {copy:.0} |");
}
