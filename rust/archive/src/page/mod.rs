//! The list as one page to print: no script, nothing from elsewhere.
use crate::colour::Colour;
use crate::formats::grouped;
use crate::list::Found;
use crate::source::Source;
use furzeladle::{Listed, Row};

mod words;
use words::hundredths;

/// How every page begins, and no other file: by it an earlier page is known.
pub const BEGINNING: &str = "<!DOCTYPE html>\n<html lang=\"en\">\n<head>\n\
                             <meta charset=\"utf-8\">\n\
                             <meta name=\"generator\" content=\"furzeladle\">\n";

const STYLE: &str = include_str!("page.css");

/// What marks a swatch that was cut off.
const MARK: &str = "<span class=\"mark\">\u{2020}</span>";

/// L\* of all swatches where the card has no lightness.
const MIDDLE: i32 = 5_000;

const HEAD: &str = "\
<thead>
<tr><th scope=\"col\">Rank</th><th scope=\"col\" class=\"field\">Field</th>\
<th scope=\"col\" class=\"trim\">Trim</th><th scope=\"col\">Sum</th>\
<th scope=\"col\">Distance</th></tr>
</thead>
";

/// One pair, as its row of the page's table needs it.
struct Shown {
    rank: usize,
    listed: Listed,
    field: Row,
    trim: Row,
}

impl Shown {
    fn is_clipped(&self) -> bool {
        colour(&self.field).is_clipped || colour(&self.trim).is_clipped
    }
}

/// The page of a list.
pub fn page(found: &Found, field: &Source, trim: &Source) -> String {
    let pairs = shown(found);
    let reading = words::reading(found, &field.short_name(), &trim.short_name());
    let legend = legend(found, &pairs);
    format!(
        "{BEGINNING}<meta name=\"viewport\" content=\"width=device-width, initial-scale=1\">\n\
         <title>{}</title>\n<style>\n{STYLE}</style>\n</head>\n<body>\n<main>\n\
         <h1>Pairing list</h1>\n{}<h2>How it was found</h2>\n<p>Read: {reading}</p>\n\
         <p>Asked: {}</p>\n{legend}</main>\n</body>\n</html>\n",
        words::title(found),
        table(found, &pairs),
        words::asked(found),
    )
}

/// The pairs with their rows. The library gives rows that the tables have.
fn shown(found: &Found) -> Vec<Shown> {
    let of = |(rank, listed): (usize, &Listed)| {
        Some(Shown {
            rank,
            listed: *listed,
            field: found.field.row(listed.pair.field)?,
            trim: found.trim.row(listed.pair.trim)?,
        })
    };
    (1..).zip(&found.list.pairs).filter_map(of).collect()
}

/// The table, or where there are no pairs, that there are none.
fn table(found: &Found, pairs: &[Shown]) -> String {
    let caption = words::caption(found);
    if pairs.is_empty() {
        return format!("<p>{caption}</p>\n");
    }
    let rows: String = pairs.iter().map(row).collect();
    format!("<table>\n<caption>{caption}</caption>\n{HEAD}<tbody>\n{rows}</tbody>\n</table>\n")
}

fn row(pair: &Shown) -> String {
    let (rank, sum) = (pair.rank, grouped(pair.listed.pair.sum));
    let (field, trim) = (pattern(&pair.field), pattern(&pair.trim));
    let distance = hundredths(pair.listed.distance().root as i64);
    format!(
        "<tr><th scope=\"row\">{rank}</th>\n<td class=\"field\">{field}</td>\n\
         <td class=\"trim\">{trim}</td>\n<td>{sum}</td><td>{distance}</td></tr>\n"
    )
}

/// A pattern: its number, its shade in numbers, its swatch. The two swatches of a pair meet.
fn pattern(row: &Row) -> String {
    let colour = colour(row);
    let mark = if colour.is_clipped { MARK } else { "" };
    let (number, shade) = (row.pattern, shade(row));
    format!(
        "<div><p><b>{number}</b>{mark}<br><small>{shade}</small></p>\
         <svg viewBox=\"0 0 1 1\" preserveAspectRatio=\"none\" aria-hidden=\"true\">\
         <rect width=\"1\" height=\"1\" fill=\"{colour}\"/></svg></div>"
    )
}

/// A shade in numbers. Lines break between its coordinates alone.
fn shade(row: &Row) -> String {
    let coordinates = [
        ("L*", row.lightness),
        ("a*", Some(row.a)),
        ("b*", Some(row.b)),
    ];
    let known = coordinates
        .iter()
        .filter_map(|(name, value)| value.map(|value| (name, value)));
    let words = known.map(|(name, value)| format!("{name}\u{a0}{}", hundredths(value)));
    words.collect::<Vec<_>>().join(" ")
}

fn colour(row: &Row) -> Colour {
    Colour::of([row.lightness.unwrap_or(MIDDLE), row.a, row.b])
}

/// How the swatches came about, and what the mark means where it stands. Without pairs there is nothing to read.
fn legend(found: &Found, pairs: &[Shown]) -> String {
    if pairs.is_empty() {
        return String::new();
    }
    let swatches = words::swatches(found.field.card());
    let mark = match pairs.iter().any(Shown::is_clipped) {
        true => format!("<p>{MARK} {}</p>\n", words::CLIPPED),
        false => String::new(),
    };
    format!("<h2>How to read it</h2>\n<p>{swatches}</p>\n{mark}")
}
