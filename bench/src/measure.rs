//! Times and counts of a case, seed by seed; the lists of sums are compared in every run.
use crate::clock;
use crate::contenders::{
    Contender, CONTENDERS, COUNT, EACH_ROW_ONCE, LIBRARY, SAME_CHECKS, WHOLE_QUERY,
};
use crate::outcome::Outcome;
use crate::sure::least_sure;
use crate::tables::{tables, Shape, Weighed};
use furzeladle::Asked;
use furzeladle_tests::judge;
use std::hint::black_box;

/// Runs shorter than this are repeated until they are not.
const LEAST_MS: f64 = 4.0;
/// Of so many rounds the least time counts; who has spent so long gets no further round.
const ROUNDS: usize = 5;
const ENOUGH_MS: f64 = 200.0;

#[derive(Clone, Copy)]
pub struct Case {
    pub shape: Shape,
    pub rows: (u32, u32),
    pub asked: Asked,
}

/// One seed: each contender's milliseconds and outcome, and the least sure reading.
pub struct Seeded {
    pub ms: [f64; COUNT],
    pub outcomes: Vec<Outcome>,
    pub least_sure: u32,
}

pub struct Measured {
    pub case: Case,
    pub seeds: Vec<Seeded>,
}

/// Median, lowest and highest.
#[derive(Clone, Copy)]
pub struct Spread {
    pub median: f64,
    pub low: f64,
    pub high: f64,
}

impl Spread {
    pub fn of(mut values: Vec<f64>) -> Spread {
        values.sort_by(f64::total_cmp);
        Spread {
            median: values[values.len() / 2],
            low: values[0],
            high: values[values.len() - 1],
        }
    }
}

impl Measured {
    pub fn spread(&self, of: impl Fn(&Seeded) -> f64) -> Spread {
        Spread::of(self.seeds.iter().map(of).collect())
    }

    /// The library's time over another's.
    pub fn ratio(&self, other: usize) -> Spread {
        self.spread(|seed| seed.ms[LIBRARY] / seed.ms[other])
    }

    pub fn ms(&self, contender: usize) -> f64 {
        self.spread(|seed| seed.ms[contender]).median
    }

    /// The median of a count.
    pub fn count(&self, of: impl Fn(&Seeded) -> u64) -> u64 {
        self.spread(|seed| of(seed) as f64).median as u64
    }
}

/// Milliseconds of a run, of twice as many as before until they fill some milliseconds.
fn timed(contender: &Contender, asked: Asked, t: &Weighed) -> (f64, Outcome) {
    let run = || black_box(contender.run(asked, black_box(t)));
    let mut runs = 1;
    loop {
        let mut outcome = None;
        let ms = clock::ms(|| (0..runs).for_each(|_| outcome = Some(run())));
        match outcome {
            Some(outcome) if ms >= LEAST_MS => return (ms / f64::from(runs), outcome),
            _ => runs *= 2,
        }
    }
}

/// Rounds alternate between the contenders; the least time counts, which other work disturbs least.
fn least_times(asked: Asked, t: &Weighed) -> ([f64; COUNT], Vec<Outcome>) {
    let mut least = [f64::INFINITY; COUNT];
    let mut spent = [0.0; COUNT];
    let mut outcomes = Vec::new();
    for round in 0..ROUNDS {
        for (i, contender) in CONTENDERS.iter().enumerate() {
            if spent[i] > ENOUGH_MS {
                continue;
            }
            let (ms, outcome) = timed(contender, asked, t);
            least[i] = least[i].min(ms);
            spent[i] += ms;
            if round == 0 {
                outcomes.push(outcome);
            }
        }
    }
    (least, outcomes)
}

/// The same list of sums from everyone; the same depths and joined count from the same join.
fn assert_agreed(outcomes: &[Outcome]) {
    let ours = &outcomes[LIBRARY];
    for (outcome, contender) in outcomes.iter().zip(&CONTENDERS) {
        assert_eq!(outcome.sums, ours.sums, "{}", contender.name);
    }
    for same in [WHOLE_QUERY, SAME_CHECKS, EACH_ROW_ONCE] {
        let other = &outcomes[same];
        assert_eq!((other.depths, other.joined), (ours.depths, ours.joined));
    }
}

fn seeded(case: &Case, seed: u64) -> Seeded {
    let card = case.asked.field_card;
    let t = Weighed::new(case.asked, tables(case.shape, card, case.rows, seed));
    let (ms, outcomes) = least_times(case.asked, &t);
    assert_agreed(&outcomes);
    let lent = judge::Tables {
        asked: case.asked,
        field: &t.scores.field,
        trim: &t.scores.trim,
    };
    let least_sure = least_sure(&lent, outcomes[LIBRARY].deepest());
    Seeded {
        ms,
        outcomes,
        least_sure,
    }
}

pub fn measure(case: Case, seeds: u64) -> Measured {
    Measured {
        case,
        seeds: (1..=seeds).map(|seed| seeded(&case, seed)).collect(),
    }
}
