//! A table from its strict file, which may come by standard input.
use crate::fault::Fault;
use furzeladle::sys::{HEADER_BYTES, MOST_ROWS};
use furzeladle::{Card, Side, TableOf};
use std::ffi::OsString;
use std::fmt;
use std::fs::File;
use std::io::{self, Read};
use std::path::PathBuf;

const LONGEST: usize = HEADER_BYTES + Card::New.row_bytes() * MOST_ROWS;

/// Where a strict file is read from.
#[derive(Clone, Debug, PartialEq, Eq)]
pub enum Source {
    File(PathBuf),
    Input,
}

impl Source {
    /// The file of a word: a dash is standard input.
    pub fn of(word: &OsString) -> Source {
        if word == "-" {
            Source::Input
        } else {
            Source::File(word.into())
        }
    }

    /// The file's bytes, and of a longer one as many as show that it is too long.
    pub fn bytes(&self) -> Result<Vec<u8>, Fault> {
        let read = match self {
            Source::File(path) => File::open(path).and_then(first_bytes),
            Source::Input => first_bytes(io::stdin().lock()),
        };
        read.map_err(|error| Fault::Unreadable(self.clone(), error))
    }

    /// The file's rows on the card that it names, checked and read by the library.
    pub fn table<S: Side>(&self) -> Result<TableOf<S>, Fault> {
        let read = TableOf::from_file(&self.bytes()?);
        read.map_err(|refusal| Fault::File(self.clone(), refusal))
    }

    /// Its name without its folders.
    pub fn short_name(&self) -> String {
        match self {
            Source::File(path) => {
                let name = path.file_name().unwrap_or(path.as_os_str());
                name.to_string_lossy().into_owned()
            }
            Source::Input => self.to_string(),
        }
    }
}

fn first_bytes(from: impl Read) -> io::Result<Vec<u8>> {
    let mut bytes = Vec::new();
    from.take(LONGEST as u64 + 1).read_to_end(&mut bytes)?;
    Ok(bytes)
}

impl fmt::Display for Source {
    fn fmt(&self, to: &mut fmt::Formatter) -> fmt::Result {
        match self {
            Source::File(path) => path.display().fmt(to),
            Source::Input => to.write_str("standard input"),
        }
    }
}
