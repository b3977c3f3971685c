//! What the page says beside its table.
use crate::formats::grouped;
use crate::list::Found;
use furzeladle::{Asked, Card, Meaning};

pub const CLIPPED: &str = "This shade is stronger than screens show (outside sRGB): its swatch is \
                           the nearest by each of red, green and blue.";

/// Hundredths as a decimal number.
pub fn hundredths(number: impl Into<i64>) -> String {
    let number = number.into();
    let sign = if number < 0 { "\u{2212}" } else { "" };
    let number = number.unsigned_abs();
    format!("{sign}{}.{:02}", number / 100, number % 100)
}

/// So many pairs.
fn pairs(number: usize) -> String {
    match number {
        0 => "no pairs".to_string(),
        1 => "1 pair".to_string(),
        _ => format!("{number} pairs"),
    }
}

pub fn title(found: &Found) -> String {
    let radius = hundredths(found.asked.query.radius);
    format!(
        "Pairing list: {} within {radius}",
        pairs(found.list.pairs.len())
    )
}

pub fn caption(found: &Found) -> String {
    let listed = found.list.pairs.len();
    let are_all = listed < found.asked.query.k as usize;
    match listed {
        0 => "No pair qualifies.".to_string(),
        1 if are_all => "This pair qualifies, and no other.".to_string(),
        1 => "The best-selling pair whose shades lie near enough.".to_string(),
        _ if are_all => format!("These {listed} pairs qualify, and no others; best-selling first."),
        _ => format!("The {listed} best-selling pairs whose shades lie near enough, best first."),
    }
}

/// How many rows were read of how many.
pub fn reading(found: &Found, field: &str, trim: &str) -> String {
    let (p, q) = found.list.depths;
    let (m, n) = (found.field.count(), found.trim.count());
    let part = |read: u32, of: u32, name: &str| {
        let (read, of, name) = (grouped(read), grouped(of), escaped(name));
        format!("{read} of {of} rows of {name}")
    };
    let (field, trim) = (part(p.0, m.0, field), part(q.0, n.0, trim));
    let unread = match (p, q) == (m, n) {
        true => "",
        false => " No row that was not read can change the sums of this list.",
    };
    format!("{field} and {trim}.{unread}")
}

/// What was asked: radius, tolerances, weights.
pub fn asked(found: &Found) -> String {
    let asked = found.asked;
    let (pairs, radius) = (
        pairs(asked.query.k as usize),
        hundredths(asked.query.radius),
    );
    let (tolerances, weights) = (tolerances(asked), weights(asked));
    format!(
        "at most {pairs} of patterns that are not withdrawn, whose shades lie within {radius} of \
         each other{tolerances}. {weights}"
    )
}

fn tolerances(asked: Asked) -> String {
    let (t, u) = (asked.field_tolerance.0, asked.trim_tolerance.0);
    if (t, u) == (0, 0) {
        return ", as the tables have them".to_string();
    }
    let meaning = match asked.meaning {
        Meaning::Surely => "wherever they are",
        Meaning::Possibly => "somewhere they may be",
    };
    let (t, u) = (hundredths(t), hundredths(u));
    format!(
        " {meaning}, on each coordinate a field shade being known within {t} and a trim shade \
         within {u}"
    )
}

fn weights(asked: Asked) -> String {
    match (asked.field_weight.0, asked.trim_weight.0) {
        (1, 1) => "A sum is the two scores added.".to_string(),
        (v, w) => format!(
            "In a sum a field score counts {}, a trim score {}.",
            times(v),
            times(w)
        ),
    }
}

fn times(number: u32) -> String {
    match number {
        1 => "once".to_string(),
        2 => "twice".to_string(),
        _ => format!("{number} times"),
    }
}

pub fn swatches(card: Card) -> String {
    let lightness = match card {
        Card::Old => " The shade card has no lightness: all swatches are shown at L* 50.",
        Card::New => "",
    };
    format!(
        "Swatches are CIE Lab under D65, shown as sRGB.{lightness} A distance is in CIE Lab units \
         between the shades as the tables have them, rounded down."
    )
}

/// A text in which nothing is markup.
fn escaped(text: &str) -> String {
    let mut out = String::new();
    for letter in text.chars() {
        match letter {
            '&' => out += "&amp;",
            '<' => out += "&lt;",
            '>' => out += "&gt;",
            '"' => out += "&quot;",
            '\'' => out += "&#39;",
            _ if letter.is_control() => out.push('\u{fffd}'),
            _ => out.push(letter),
        }
    }
    out
}

#[cfg(test)]
mod tests {
    use super::*;

    #[test]
    fn numbers_in_hundredths() {
        for (number, text) in [
            (0, "0.00"),
            (5, "0.05"),
            (255, "2.55"),
            (-1_203, "\u{2212}12.03"),
        ] {
            assert_eq!(hundredths(number), text);
        }
    }

    #[test]
    fn names_of_files_are_no_markup() {
        assert_eq!(escaped("<b>&\"'\n"), "&lt;b&gt;&amp;&quot;&#39;\u{fffd}");
        assert_eq!(escaped("Läufer.TAB"), "Läufer.TAB");
    }

    #[test]
    fn counts_in_words() {
        assert_eq!(
            [pairs(0), pairs(1), pairs(64)],
            ["no pairs", "1 pair", "64 pairs"]
        );
        assert_eq!([times(1), times(2), times(9)], ["once", "twice", "9 times"]);
    }
}
