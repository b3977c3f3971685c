//! Who is measured: the library, and what one would use instead.
use crate::outcome::Outcome;
use crate::tables::Weighed;
use crate::{block_printed, blockwise, join_first, library, score_first};
use furzeladle::{Asked, Card, Query};
use Join::{Plain, Weighing};

pub struct Contender {
    pub name: &'static str,
    join: Join,
}

/// A join of a query over two tables.
type OverTables<Q> = fn(Q, &[i32], &[i32]) -> Outcome;

/// A join of rows of four numbers, and that of rows of five.
enum Join {
    /// Weighs the scores itself.
    Weighing([OverTables<Asked>; 2]),
    /// Knows neither weights nor withdrawn rows and checks nothing: it joins live rows whose scores were weighed before,
    /// outside the timing. At weights 1 and 1 these are the front of the tables themselves.
    Plain([OverTables<Query>; 2]),
}

impl Contender {
    pub fn run(&self, asked: Asked, tables: &Weighed) -> Outcome {
        let card = match asked.field_card {
            Card::Old => 0,
            Card::New => 1,
        };
        match self.join {
            Weighing(joins) => joins[card](asked, &tables.scores.field, &tables.scores.trim),
            Plain(joins) => joins[card](asked.query, &tables.worth.field, &tables.worth.trim),
        }
    }
}

/// Places in the list below.
pub const LIBRARY: usize = 0;
pub const WHOLE_QUERY: usize = 1;
pub const SAME_CHECKS: usize = 2;
pub const EACH_ROW_ONCE: usize = 3;
pub const ALL_PAIRS: usize = 4;
pub const SWEEP: usize = 5;
pub const SCORE_FIRST: usize = 6;
pub const BLOCK_PRINTED: usize = 7;
pub const COUNT: usize = 8;

const fn contender(name: &'static str, join: Join) -> Contender {
    Contender { name, join }
}

pub const CONTENDERS: [Contender; COUNT] = [
    contender("library", Weighing([library::session; 2])),
    contender("in one call", Weighing([library::whole_query; 2])),
    contender(
        "same checks",
        Weighing([blockwise::same_checks::<4>, blockwise::same_checks::<5>]),
    ),
    contender(
        "each row once",
        Weighing([
            blockwise::rows_checked_once::<4>,
            blockwise::rows_checked_once::<5>,
        ]),
    ),
    contender(
        "all pairs, sorted",
        Plain([
            join_first::all_pairs_sorted::<4>,
            join_first::all_pairs_sorted::<5>,
        ]),
    ),
    contender(
        "plane sweep",
        Plain([join_first::plane_sweep::<4>, join_first::plane_sweep::<5>]),
    ),
    contender(
        "source's SFA, scan",
        Plain([score_first::scan::<4>, score_first::scan::<5>]),
    ),
    contender(
        "source's BA, sweep",
        Plain([block_printed::swept::<4>, block_printed::swept::<5>]),
    ),
];
