//! What the command writes: standard output, and files that nobody loses by it.
use crate::fault::Fault;
use std::fs::{self, File, OpenOptions};
use std::io::{self, Read, Write};
use std::path::Path;

/// Writes to standard output.
pub fn print(bytes: &[u8]) -> Result<(), Fault> {
    let mut out = io::stdout().lock();
    out.write_all(bytes)
        .and_then(|()| out.flush())
        .map_err(Fault::Output)
}

/// What stands where a file is to be written.
pub enum Standing {
    Nothing,
    /// A file of these very bytes.
    Same,
    /// Something else.
    Other,
}

/// A file of another length is not read: it may be of any.
pub fn standing(path: &Path, bytes: &[u8]) -> Standing {
    match fs::metadata(path) {
        Err(error) if error.kind() == io::ErrorKind::NotFound => Standing::Nothing,
        Ok(about) if about.is_file() && about.len() == bytes.len() as u64 => {
            match fs::read(path).is_ok_and(|found| found == bytes) {
                true => Standing::Same,
                false => Standing::Other,
            }
        }
        _ => Standing::Other,
    }
}

/// Writes a file where there is none. One that could not be written to its end does not stay.
pub fn create(path: &Path, bytes: &[u8]) -> Result<(), Fault> {
    let fault = |error| Fault::Unwritable(path.into(), error);
    let new = OpenOptions::new().write(true).create_new(true).open(path);
    new.map_err(fault)?.write_all(bytes).map_err(|error| {
        let _ = fs::remove_file(path);
        fault(error)
    })
}

/// Writes a file, or writes over the one that is there.
pub fn replace(path: &Path, bytes: &[u8]) -> Result<(), Fault> {
    let written = File::create(path).and_then(|mut file| file.write_all(bytes));
    written.map_err(|error| Fault::Unwritable(path.into(), error))
}

/// Whether a file is there that begins otherwise: what replaces it would be something else. An empty one is nobody's,
/// and a device or a pipe keeps nothing.
pub fn begins_otherwise(path: &Path, beginning: &[u8]) -> bool {
    let is_kept = fs::metadata(path).is_ok_and(|about| about.is_file() && about.len() > 0);
    let mut found = Vec::new();
    let read = |file: File| file.take(beginning.len() as u64).read_to_end(&mut found);
    is_kept && (File::open(path).and_then(read).is_err() || found != beginning)
}
