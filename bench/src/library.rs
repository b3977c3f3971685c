//! The proved library: call by call, and as one whole query.
use crate::outcome::Outcome;
use furzeladle::raw::{self, Session};
use furzeladle::{Asked, Progress, Taken};

/// Opened, read until settled, taken until finished: every call checks what it is given.
pub fn session(asked: Asked, field: &[i32], trim: &[i32]) -> Outcome {
    let mut s = Session::open(asked, field, trim).unwrap();
    while s.read(field, trim) == Ok(Progress::Read) {}
    let mut sums = Vec::new();
    while let Ok(Taken::Given(pair)) = s.take(field, trim) {
        sums.push(pair.sum);
    }
    Outcome {
        sums,
        depths: s.depths().into(),
        tests: 0,
        joined: s.joined(),
    }
}

/// The same in one call.
pub fn whole_query(asked: Asked, field: &[i32], trim: &[i32]) -> Outcome {
    let list = raw::list(asked, field, trim).unwrap();
    Outcome {
        sums: list.pairs.iter().map(|listed| listed.pair.sum).collect(),
        depths: list.depths.into(),
        tests: 0,
        joined: list.joined,
    }
}
