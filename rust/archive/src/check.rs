//! `furzeladle check`: whether files are strict files, and if not, why.
use crate::arguments::{Known, Wrong};
use crate::fault::{refused, Fault};
use crate::formats::grouped;
use crate::source::Source;
use crate::{help, output};
use furzeladle::AnyTable;
use std::ffi::OsString;
use std::io::{self, Write};

const KNOWN: Known = Known {
    valued: &[],
    bare: &[],
};

fn wanted(given: &[OsString]) -> Result<Vec<Source>, Wrong> {
    let files: Vec<Source> = KNOWN.sort(given)?.plain.iter().map(Source::of).collect();
    let inputs = files.iter().filter(|file| **file == Source::Input).count();
    match (files.len(), inputs) {
        (0, _) => Err("takes a file, or several".to_string()),
        (_, 2..) => Err("only one of the files can be standard input".to_string()),
        _ => Ok(files),
    }
}

/// So many rows, and of which kind.
pub fn words(source: &Source, table: &AnyTable) -> String {
    let (rows, kind) = (table.count(), table.kind());
    let word = if rows == 1 { "row" } else { "rows" };
    let (rows, number) = (grouped(rows), kind.number());
    format!(
        "{source}: {rows} {word}, kind {number} ({}, {})\n",
        kind.table, kind.card
    )
}

/// Says of one file what it is: the exit status.
fn check(source: &Source) -> Result<u8, Fault> {
    let bytes = match source.bytes() {
        Ok(bytes) => bytes,
        Err(fault) => {
            let _ = writeln!(io::stderr(), "{fault}");
            return Ok(fault.status());
        }
    };
    let (line, status) = match AnyTable::from_file(&bytes) {
        Ok(table) => (words(source, &table), 0),
        Err(refusal) => (refused(source, refusal) + "\n", 1),
    };
    output::print(line.as_bytes())?;
    Ok(status)
}

/// The highest status of all files.
pub fn run(given: &[OsString]) -> Result<(), Fault> {
    let files = wanted(given).map_err(|why| Fault::Wrong(help::CHECK, why))?;
    let mut worst = 0;
    for file in &files {
        worst = worst.max(check(file)?);
    }
    match worst {
        0 => Ok(()),
        status => Err(Fault::Several(status)),
    }
}
