//! The archive's command: pairing lists of two strict files of up to 65,535 rows, the checking of such files, and a
//! made-up archive to try it on.
//!
//! Reading, checking and pairing are the proved library's; here are arguments, files, forms and words.
#![forbid(unsafe_code)]
use std::ffi::{OsStr, OsString};
use std::io::{self, Write};
use std::process::ExitCode;

mod arguments;
mod check;
mod colour;
mod dice;
mod fault;
mod formats;
mod help;
mod list;
mod old;
mod output;
mod page;
mod progress;
mod sample;
mod source;

use fault::Fault;
use help::Help;

/// A subcommand: its help, and what it does with the words behind it.
struct Subcommand {
    name: &'static str,
    help: Help,
    run: fn(&[OsString]) -> Result<(), Fault>,
}

const SUBCOMMANDS: [Subcommand; 3] = [
    Subcommand {
        name: "list",
        help: help::LIST,
        run: list::run,
    },
    Subcommand {
        name: "check",
        help: help::CHECK,
        run: check::run,
    },
    Subcommand {
        name: "sample",
        help: help::SAMPLE,
        run: sample::run,
    },
];

impl Subcommand {
    fn named(word: &OsStr) -> Option<&'static Subcommand> {
        SUBCOMMANDS
            .iter()
            .find(|subcommand| word == subcommand.name)
    }

    /// Whoever stops reading its output has had enough, and is told nothing.
    fn run(&self, given: &[OsString]) -> Result<(), Fault> {
        let done = if arguments::ask_for_help(given) {
            output::print(self.help.0.as_bytes())
        } else {
            (self.run)(given)
        };
        done.map_err(Fault::quietly)
    }
}

fn run(given: &[OsString]) -> Result<(), Fault> {
    let Some((first, rest)) = given.split_first() else {
        return Err(Fault::Usage);
    };
    if let Some(subcommand) = Subcommand::named(first) {
        return subcommand.run(rest);
    }
    match first.to_str() {
        Some("--help" | "-h") if rest.is_empty() => output::print(help::MAIN.0.as_bytes()),
        Some("--version" | "-V") if rest.is_empty() => output::print(help::version().as_bytes()),
        _ => old::run(given),
    }
}

fn main() -> ExitCode {
    let given: Vec<OsString> = std::env::args_os().skip(1).collect();
    let Err(fault) = run(&given) else {
        return ExitCode::SUCCESS;
    };
    let words = fault.to_string();
    if !words.is_empty() {
        // Nobody is left to tell where standard error is closed too.
        let _ = writeln!(io::stderr(), "{words}");
    }
    ExitCode::from(fault.status())
}
