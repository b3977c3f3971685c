//! The C header beside the Rust crate: sizes, places, refusals and version are the same.
use furzeladle::sys::*;
use furzeladle::{raw, Card, Kind, Refusal};
use std::collections::HashMap;

/// Every name that the header gives a number, less its prefix.
fn names() -> HashMap<&'static str, i64> {
    let header = include_str!("../../../include/furzeladle.h");
    let defined = header.lines().filter_map(|line| line.strip_prefix("#define FURZELADLE_")?.split_once(' '));
    let enumerated = header
        .split(['{', ',', '\n'])
        .filter_map(|part| part.trim_start().strip_prefix("FURZELADLE_")?.split_once(" = "));
    let number = |text: &str| text.split(&[' ', '/', '}', ';'][..]).next()?.parse().ok();
    defined.chain(enumerated).filter_map(|(name, text)| Some((name, number(text)?))).collect()
}

#[test]
fn sizes_and_places() {
    let names = names();
    for (name, number) in [
        ("QUERY_LEAST", QUERY_LEAST),
        ("QUERY_ALL", QUERY_ALL),
        ("RECORD_SIZE", RECORD_SIZE),
        ("PAIR_SIZE", PAIR_SIZE),
        ("PLACE_SIZE", PLACE_SIZE),
        ("QUERY_SIZE", QUERY_SIZE),
        ("LISTING_SIZE", LISTING_SIZE),
        ("OLD_ROW", OLD_ROW),
        ("NEW_ROW", NEW_ROW),
        ("OLD_ROW_BYTES", OLD_ROW_BYTES),
        ("NEW_ROW_BYTES", NEW_ROW_BYTES),
        ("HEADER_BYTES", HEADER_BYTES),
        ("MOST_ROWS", MOST_ROWS),
        ("AT_K", AT_K),
        ("AT_FIELD_ROWS", AT_FIELD_ROWS),
        ("AT_TRIM_ROWS", AT_TRIM_ROWS),
        ("AT_FIELD_DEPTH", AT_FIELD_DEPTH),
        ("AT_TRIM_DEPTH", AT_TRIM_DEPTH),
        ("AT_LAST", AT_LAST),
        ("AT_OUT", AT_OUT),
        ("AT_HELD", AT_HELD),
        ("AT_JOINED", AT_JOINED),
        ("AT_JOINED_HIGH", AT_JOINED_HIGH),
        ("AT_PAIRS", AT_PAIRS),
        ("AT_FIELD_WEIGHT", AT_FIELD_WEIGHT),
        ("AT_CARD", AT_CARD),
        ("OLD_CARD", Card::Old as usize),
        ("NEW_CARD", Card::New as usize),
    ] {
        assert_eq!(names.get(name), Some(&(number as i64)), "{name}");
    }
    let kinds = ["FIELD", "TRIM", "NEW_FIELD", "NEW_TRIM"].map(|name| names[name]);
    assert_eq!(kinds, Kind::ALL.map(|kind| i64::from(kind.number())));
}

/// Each refusal has a case, whose word is the header's name.
#[test]
fn refusals() {
    let mut found = 0;
    for (name, number) in names() {
        let Some(name) = name.strip_prefix("REFUSED_") else { continue };
        let refusal = Refusal::from(raw::Refusal { number: number as u32, row: 0 });
        assert_eq!(refusal.word().to_uppercase().replace(' ', "_"), name);
        assert!(!matches!(refusal, Refusal::Unnamed { .. }), "{name}");
        found += 1;
    }
    assert_eq!(found, 14);
}

#[test]
fn version() {
    let names = names();
    let [major, minor, patch] = ["MAJOR", "MINOR", "PATCH"].map(|part| names[format!("VERSION_{part}").as_str()]);
    assert_eq!(format!("{major}.{minor}.{patch}"), env!("CARGO_PKG_VERSION"));
    assert_eq!(furzeladle::version().to_string(), env!("CARGO_PKG_VERSION"));
}
