//! What was measured, as Markdown tables: counts first, then times.
use crate::contenders::{BLOCK_PRINTED, CONTENDERS, LIBRARY, SAME_CHECKS, SCORE_FIRST, SWEEP};
use crate::measure::{Measured, Spread};
use furzeladle::{Asked, Card};

/// With commas between thousands.
pub fn grouped(n: u64) -> String {
    let digits = n.to_string();
    let mut text = String::new();
    for (i, digit) in digits.chars().enumerate() {
        if i > 0 && (digits.len() - i).is_multiple_of(3) {
            text.push(',');
        }
        text.push(digit);
    }
    text
}

/// Three figures, or so many as a small number needs.
fn short(x: f64) -> String {
    match x {
        x if x >= 100.0 => format!("{x:.0}"),
        x if x >= 0.095 => format!("{x:.2}"),
        x if x >= 0.0095 => format!("{x:.3}"),
        x if x >= 0.00095 => format!("{x:.4}"),
        x => format!("{x:.1e}"),
    }
}

fn with_spread(s: Spread) -> String {
    format!("{} ({}–{})", short(s.median), short(s.low), short(s.high))
}

fn rows_with_spread(s: Spread) -> String {
    let [median, low, high] = [s.median, s.low, s.high].map(|rows| grouped(rows as u64));
    format!("{median} ({low}–{high})")
}

fn line(cells: &[String]) -> String {
    format!("| {} |", cells.join(" | "))
}

fn head(titles: &[&str]) {
    let titles: Vec<String> = titles.iter().map(|t| t.to_string()).collect();
    println!("{}", line(&titles));
    println!("|{}", "---|".repeat(titles.len()));
}

/// The weights, where they are not 1 and 1.
fn weights(asked: Asked) -> String {
    match (asked.field_weight.0, asked.trim_weight.0) {
        (1, 1) => String::new(),
        (v, w) => format!(", weights {v} and {w}"),
    }
}

/// The card, where it is not the old one.
fn card(asked: Asked) -> &'static str {
    match asked.field_card {
        Card::Old => "",
        Card::New => ", new card",
    }
}

/// What every row of a table begins with.
fn query(m: &Measured) -> Vec<String> {
    let (case, q) = (m.case, m.case.asked.query);
    let (f, t) = case.rows;
    let tables = format!(
        "{}, {} × {}{}{}",
        case.shape.name(),
        grouped(f.into()),
        grouped(t.into()),
        weights(case.asked),
        card(case.asked)
    );
    let number = |n: u32| grouped(n.into());
    vec![tables, number(q.radius), number(q.k), number(q.block)]
}

/// Field rows and trim rows read.
fn depths(m: &Measured, contender: usize) -> String {
    let depth = |i: usize| grouped(m.count(|s| s.outcomes[contender].depths[i].into()));
    format!("{} + {}", depth(0), depth(1))
}

fn tests(m: &Measured, contender: usize) -> u64 {
    m.count(|s| s.outcomes[contender].tests)
}

fn counts_row(m: &Measured) -> String {
    let (f, t) = m.case.rows;
    let blockwise = tests(m, SAME_CHECKS);
    let all = u64::from(f) * u64::from(t);
    let mut cells = query(m);
    cells.extend([
        depths(m, LIBRARY),
        rows_with_spread(m.spread(|s| s.outcomes[LIBRARY].deepest().into())),
        rows_with_spread(m.spread(|s| s.least_sure.into())),
        depths(m, BLOCK_PRINTED),
        grouped(m.count(|s| s.outcomes[LIBRARY].joined)),
        grouped(blockwise),
        short(100.0 * blockwise as f64 / all as f64),
        grouped(tests(m, SWEEP)),
        grouped(tests(m, SCORE_FIRST)),
        grouped(tests(m, BLOCK_PRINTED)),
    ]);
    line(&cells)
}

pub fn counts(measured: &[Measured]) {
    head(&[
        "Tables",
        "Radius",
        "k",
        "Block",
        "Rows read",
        "Deeper table",
        "Least sure reading",
        "source's rule reads",
        "Block pairs joined",
        "Pair tests",
        "% of all",
        "Sweep's tests",
        "SFA's tests",
        "BA's tests",
    ]);
    measured.iter().for_each(|m| println!("{}", counts_row(m)));
}

pub fn times(measured: &[Measured]) {
    let mut titles = vec!["Tables", "Radius", "k", "Block", "Library, ms"];
    titles.extend(CONTENDERS.iter().skip(1).map(|c| c.name));
    head(&titles);
    for m in measured {
        let mut cells = query(m);
        cells.push(short(m.ms(LIBRARY)));
        cells.extend((1..CONTENDERS.len()).map(|other| with_spread(m.ratio(other))));
        println!("{}", line(&cells));
    }
}

/// Each contender's ratios over these cases: the middle one, the lowest and the highest of the cases' medians.
/// The first column's title is the group's.
pub fn summary(beside: &str, measured: &[Measured]) {
    head(&[
        beside,
        "Median",
        "Lowest",
        "Highest",
        "Cases where the library is faster",
    ]);
    for (other, contender) in CONTENDERS.iter().enumerate().skip(1) {
        let ratios: Vec<f64> = measured.iter().map(|m| m.ratio(other).median).collect();
        let faster = ratios.iter().filter(|ratio| **ratio < 1.0).count();
        let spread = Spread::of(ratios);
        let cells = [spread.median, spread.low, spread.high].map(short);
        let [median, low, high] = cells;
        let faster = format!("{faster} of {}", measured.len());
        println!(
            "{}",
            line(&[contender.name.to_string(), median, low, high, faster])
        );
    }
}
