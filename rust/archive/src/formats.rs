//! The list in its forms for reading on: the listing, CSV and JSON. Numbers are as the library gave them.
use crate::list::Found;
use furzeladle::{List, Listed, Meaning, Query};

/// How the list is printed.
#[derive(Clone, Copy, Debug, PartialEq, Eq)]
pub enum Format {
    Listing,
    Csv,
    Json,
}

impl Format {
    pub const ALL: [(&'static str, Format); 3] = [
        ("listing", Format::Listing),
        ("csv", Format::Csv),
        ("json", Format::Json),
    ];

    pub fn text(self, found: &Found) -> String {
        match self {
            Format::Listing => listing(found),
            Format::Csv => csv(found),
            Format::Json => json(found),
        }
    }
}

/// A number in groups of three digits.
pub fn grouped(number: impl Into<u64>) -> String {
    let digits = number.into().to_string();
    let mut text = String::new();
    for (at, digit) in digits.chars().enumerate() {
        if at > 0 && (digits.len() - at) % 3 == 0 {
            text.push(',');
        }
        text.push(digit);
    }
    text
}

/// What is said of a pair, and its names.
const NAMES: [&str; 9] = [
    "rank",
    "sum",
    "field_number",
    "trim_number",
    "field_row",
    "trim_row",
    "squared_distance",
    "distance",
    "remainder",
];

fn numbers(rank: usize, listed: &Listed) -> [u64; 9] {
    let distance = listed.distance();
    [
        rank as u64,
        listed.pair.sum.into(),
        listed.field_number.into(),
        listed.trim_number.into(),
        listed.pair.field.into(),
        listed.pair.trim.into(),
        listed.squared_distance,
        distance.root,
        distance.rest,
    ]
}

/// The numbers of all pairs, from rank 1.
fn all(list: &List) -> impl Iterator<Item = [u64; 9]> + '_ {
    (1..)
        .zip(&list.pairs)
        .map(|(rank, listed)| numbers(rank, listed))
}

/// The listing as the library writes it, from a list that is there already.
fn listing(found: &Found) -> String {
    let Query { k, block, radius } = found.asked.query;
    let mut text = format!("{k:>6}{block:>6}{radius:>6}\n");
    for [rank, sum, field, trim, .., root, rest] in all(&found.list) {
        text += &format!("{rank:>6}{sum:>6}{field:>6}{trim:>6}{root:>8}{rest:>8}\n");
    }
    let (field, trim) = found.list.depths;
    text += &format!("{:>6}{:>6}{:>12}\n", field.0, trim.0, found.list.joined);
    text
}

fn csv(found: &Found) -> String {
    let mut text = NAMES.join(",") + "\n";
    for numbers in all(&found.list) {
        text += &(numbers.map(|number| number.to_string()).join(",") + "\n");
    }
    text
}

fn json(found: &Found) -> String {
    let pairs: Vec<String> = all(&found.list).map(json_pair).collect();
    let pairs = match pairs.as_slice() {
        [] => "[]".to_string(),
        pairs => format!("[\n    {}\n  ]", pairs.join(",\n    ")),
    };
    let (query, tables, joined) = (json_query(found), json_tables(found), found.list.joined);
    format!(
        "{{\n  \"query\": {query},\n  \"tables\": {tables},\n  \"joined\": {joined},\n  \
         \"pairs\": {pairs}\n}}\n"
    )
}

fn json_pair(numbers: [u64; 9]) -> String {
    let named = NAMES.iter().zip(numbers);
    let members: Vec<String> = named.map(|(name, n)| format!("\"{name}\": {n}")).collect();
    format!("{{{}}}", members.join(", "))
}

fn json_query(found: &Found) -> String {
    let asked = found.asked;
    let Query { k, block, radius } = asked.query;
    let (v, w) = (asked.field_weight.0, asked.trim_weight.0);
    let (t, u) = (asked.field_tolerance.0, asked.trim_tolerance.0);
    let surely = asked.meaning == Meaning::Surely;
    format!(
        "{{\"pairs\": {k}, \"block\": {block}, \"radius\": {radius}, \"weights\": [{v}, {w}], \
         \"tolerance\": [{t}, {u}], \"surely\": {surely}}}"
    )
}

fn json_tables(found: &Found) -> String {
    let table = |kind: i32, rows: u32, read: u32| {
        format!("{{\"kind\": {kind}, \"rows\": {rows}, \"read\": {read}}}")
    };
    let (field, trim) = (found.field, found.trim);
    let (p, q) = found.list.depths;
    let field = table(field.kind().number(), field.count().0, p.0);
    let trim = table(trim.kind().number(), trim.count().0, q.0);
    format!("{{\"field\": {field}, \"trim\": {trim}}}")
}

#[cfg(test)]
mod tests {
    use super::*;

    #[test]
    fn groups_of_three() {
        for (number, text) in [
            (0u32, "0"),
            (999, "999"),
            (1_000, "1,000"),
            (38_000, "38,000"),
            (4_294_967_295, "4,294,967,295"),
        ] {
            assert_eq!(grouped(number), text);
        }
    }
}
