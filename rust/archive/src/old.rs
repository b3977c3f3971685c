//! The form without a subcommand, from before there were any: two files, three or five numbers, two options. It stays
//! for those who wrote against it.
use crate::arguments::{number, two};
use crate::fault::Fault;
use crate::output;
use crate::source::Source;
use furzeladle::{Asked, FieldTolerance, FieldWeight, Meaning, Query, TrimTolerance, TrimWeight};
use std::ffi::OsString;

struct Wanted {
    field: Source,
    trim: Source,
    asked: Asked,
}

/// What the options say.
#[derive(Default)]
struct Options {
    tolerances: Option<(u32, u32)>,
    meaning: Meaning,
}

/// The options, and what stands between them. None where one is unknown, is given twice or lacks its numbers.
fn sorted(given: &[OsString]) -> Option<(Options, Vec<&OsString>)> {
    let mut options = Options::default();
    let mut others = Vec::new();
    let mut left = given.iter();
    while let Some(word) = left.next() {
        if word == "--surely" && options.meaning == Meaning::Possibly {
            options.meaning = Meaning::Surely;
        } else if word == "--tolerance" && options.tolerances.is_none() {
            options.tolerances = Some(two(left.next()?)?);
        } else if word.as_encoded_bytes().starts_with(b"--") {
            return None;
        } else {
            others.push(word);
        }
    }
    Some((options, others))
}

impl Wanted {
    /// None where these are not two files, three or five whole numbers, and options.
    fn of(given: &[OsString]) -> Option<Wanted> {
        let (options, others) = sorted(given)?;
        let [field, trim, k, block, radius, weights @ ..] = others.as_slice() else {
            return None;
        };
        let query = Query {
            k: number(k)?,
            block: number(block)?,
            radius: number(radius)?,
        };
        let (u, v) = options.tolerances.unwrap_or_default();
        let asked = weighed(query, weights)?;
        Some(Wanted {
            field: Source::File(field.into()),
            trim: Source::File(trim.into()),
            asked: asked.tolerating(FieldTolerance(u), TrimTolerance(v), options.meaning),
        })
    }
}

/// Both weights are given, or neither.
fn weighed(query: Query, weights: &[&OsString]) -> Option<Asked> {
    match weights {
        [] => Some(query.into()),
        [field, trim] => {
            Some(query.weights(FieldWeight(number(field)?), TrimWeight(number(trim)?)))
        }
        _ => None,
    }
}

/// Both files are checked whole, the field file first, before the query is looked at.
pub fn run(given: &[OsString]) -> Result<(), Fault> {
    let wanted = Wanted::of(given).ok_or(Fault::Usage)?;
    let field = wanted.field.table()?;
    let trim = wanted.trim.table()?;
    let listing = wanted.asked.over(&field, &trim).listing();
    output::print(&listing.map_err(Fault::Query)?)
}
