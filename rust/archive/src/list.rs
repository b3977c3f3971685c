//! `furzeladle list`: the pairing list of two strict files.
use crate::arguments::{Known, Words, Wrong};
use crate::fault::Fault;
use crate::formats::Format;
use crate::source::Source;
use crate::{help, output, page, progress};
use furzeladle::{
    Asked, FieldTable, FieldTolerance, FieldWeight, List, Meaning, Over, Query, TrimTable,
    TrimTolerance, TrimWeight,
};
use std::ffi::OsString;
use std::path::{Path, PathBuf};

const KNOWN: Known = Known {
    valued: &[
        "--pairs",
        "--block",
        "--radius",
        "--weights",
        "--tolerance",
        "--format",
        "--html",
    ],
    bare: &["--surely"],
};

/// Where a page is written.
enum Page {
    File(PathBuf),
    /// Standard output, in place of the list.
    Output,
}

/// What the words ask for.
struct Wanted {
    field: Source,
    trim: Source,
    asked: Asked,
    format: Format,
    page: Option<Page>,
}

/// A list, with what it was asked for and the tables that it is of.
pub struct Found<'a> {
    pub asked: Asked,
    pub field: &'a FieldTable,
    pub trim: &'a TrimTable,
    pub list: List,
}

impl Wanted {
    fn of(given: &[OsString]) -> Result<Wanted, Wrong> {
        let words = KNOWN.sort(given)?;
        let [field, trim] = words.exactly("two files, FIELD and TRIM")?.map(Source::of);
        if field == Source::Input && trim == Source::Input {
            return Err("only one of the two files can be standard input".to_string());
        }
        let default = Query::default();
        let query = Query {
            k: words.number("--pairs", default.k)?,
            block: words.number("--block", default.block)?,
            radius: words.number("--radius", default.radius)?,
        };
        let (v, w) = words.two("--weights", (1, 1))?;
        let (t, u) = words.two("--tolerance", (0, 0))?;
        let meaning = match words.has("--surely") {
            true => Meaning::Surely,
            false => Meaning::Possibly,
        };
        let asked = query.weights(FieldWeight(v), TrimWeight(w));
        Ok(Wanted {
            field,
            trim,
            asked: asked.tolerating(FieldTolerance(t), TrimTolerance(u), meaning),
            format: words.choice("--format", &Format::ALL)?,
            page: wanted_page(&words)?,
        })
    }
}

/// Standard output takes the list or the page, not both.
fn wanted_page(words: &Words) -> Result<Option<Page>, Wrong> {
    match words.value("--html") {
        Some(out) if out == "-" && words.has("--format") => {
            Err("--format and '--html -' both want standard output".to_string())
        }
        Some(out) if out == "-" => Ok(Some(Page::Output)),
        out => Ok(out.map(|path| Page::File(path.into()))),
    }
}

/// Both files are checked whole, the field file first, before the query is looked at.
pub fn run(given: &[OsString]) -> Result<(), Fault> {
    let wanted = Wanted::of(given).map_err(|why| Fault::Wrong(help::LIST, why))?;
    let field = wanted.field.table()?;
    let trim = wanted.trim.table()?;
    let asked = wanted.asked;
    let over = asked.over(&field, &trim);
    if wanted.page.is_none() && wanted.format == Format::Listing && !progress::is_shown() {
        // nothing else is wanted of it: the library's own bytes
        return output::print(&over.listing().map_err(Fault::Query)?);
    }
    let list = list(over)?;
    let (field, trim) = (&field, &trim);
    let found = Found {
        asked,
        field,
        trim,
        list,
    };
    write(&wanted, &found)
}

/// The list, with progress on a terminal.
fn list(over: Over) -> Result<List, Fault> {
    if !progress::is_shown() {
        return over.list().map_err(Fault::Query);
    }
    let mut session = over.open().map_err(Fault::Query)?;
    progress::settle(&mut session);
    Ok(session.into_list())
}

/// The page first: where it cannot be written, nothing is printed.
fn write(wanted: &Wanted, found: &Found) -> Result<(), Fault> {
    let page = || page::page(found, &wanted.field, &wanted.trim);
    match &wanted.page {
        Some(Page::Output) => return output::print(page().as_bytes()),
        Some(Page::File(path)) => write_page(path, &page())?,
        None => {}
    }
    output::print(wanted.format.text(found).as_bytes())
}

/// A table that was named by mistake is no page, and stays.
fn write_page(path: &Path, page: &str) -> Result<(), Fault> {
    if output::begins_otherwise(path, page::BEGINNING.as_bytes()) {
        let why = "it is there already and is no page of a list";
        return Err(Fault::Kept(path.into(), why));
    }
    output::replace(path, page.as_bytes())
}
