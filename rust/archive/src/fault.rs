//! Why something was not done, in words.
use crate::help::{self, Help};
use crate::source::Source;
use furzeladle::Refusal;
use std::fmt;
use std::io;
use std::path::PathBuf;

pub enum Fault {
    /// Arguments of no form that the command has.
    Usage,
    /// Arguments that a subcommand does not take, and why.
    Wrong(Help, String),
    Unreadable(Source, io::Error),
    File(Source, Refusal),
    Query(Refusal),
    /// Standard output.
    Output(io::Error),
    /// Standard output that nobody reads any more, and a subcommand that has nothing to say of it.
    Closed,
    Unwritable(PathBuf, io::Error),
    /// A file that is there already, and why it is not replaced.
    Kept(PathBuf, &'static str),
    /// Of several files some were refused, or could not be read: each was said where it stands.
    Several(u8),
}

impl Fault {
    /// The exit status.
    pub fn status(&self) -> u8 {
        match self {
            Fault::File(..) | Fault::Query(_) => 1,
            Fault::Usage | Fault::Wrong(..) => 2,
            Fault::Unreadable(..) | Fault::Output(_) | Fault::Closed => 3,
            Fault::Unwritable(..) | Fault::Kept(..) => 3,
            Fault::Several(status) => *status,
        }
    }

    /// The same with nothing said of a closed pipe.
    pub fn quietly(self) -> Fault {
        match self {
            Fault::Output(error) if error.kind() == io::ErrorKind::BrokenPipe => Fault::Closed,
            other => other,
        }
    }
}

/// A file that is refused: its name, where in it, the number and the words.
pub fn refused(source: &Source, refusal: Refusal) -> String {
    format!("{source}{}: {}", place(refusal), reason(refusal))
}

/// Where in its file a refusal is.
fn place(refusal: Refusal) -> String {
    match (refusal, refusal.row()) {
        (_, Some(row)) => format!(", row {row}"),
        (Refusal::BadColumn { .. }, None) => ", header".to_string(),
        (_, None) => String::new(),
    }
}

fn reason(refusal: Refusal) -> String {
    let (number, word, meaning) = (refusal.number(), refusal.word(), refusal.meaning());
    format!("refused by {number}, {word}: {meaning}")
}

impl fmt::Display for Fault {
    fn fmt(&self, to: &mut fmt::Formatter) -> fmt::Result {
        match self {
            Fault::Usage => write!(to, "{}", help::usage()),
            Fault::Wrong(help, why) => write!(to, "{}", help.wrong(why)),
            Fault::Unreadable(source, error) => {
                write!(to, "furzeladle: {source}: cannot be read: {error}")
            }
            Fault::File(source, refusal) => {
                write!(to, "furzeladle: {}", refused(source, *refusal))
            }
            Fault::Query(refusal) => write!(to, "furzeladle: query: {}", reason(*refusal)),
            Fault::Output(error) => {
                write!(
                    to,
                    "furzeladle: standard output: cannot be written: {error}"
                )
            }
            Fault::Unwritable(path, error) => {
                write!(
                    to,
                    "furzeladle: {}: cannot be written: {error}",
                    path.display()
                )
            }
            Fault::Kept(path, why) => {
                write!(to, "furzeladle: {}: left as it is: {why}", path.display())
            }
            Fault::Closed | Fault::Several(_) => Ok(()),
        }
    }
}
