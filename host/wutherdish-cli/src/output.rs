//! What a command writes.

use std::ffi::OsStr;
use std::fs::File;
use std::io::{self, BufWriter, ErrorKind, Write};

use crate::files::{Identity, write_file};
use crate::problem::Problem;
use crate::streams;

/// Standard output.
pub struct Output {
    out: BufWriter<File>,
    /// Whether the command has more to do where this takes no more.
    goes_on: bool,
    /// Why it took no more while the command went on.
    failed: Option<io::Error>,
}

impl Output {
    /// For a command that has more to do than this, or not.
    pub fn new(goes_on: bool) -> Result<Self, Problem> {
        let out = streams::output().map_err(|error| Problem::output(&error))?;
        Ok(Self { out: BufWriter::new(out), goes_on, failed: None })
    }

    /// Everything is written.
    pub fn finish(mut self) -> Result<(), Problem> {
        let written = self.flush();
        self.failed.map_or(written, Err).map_err(|error| Problem::output(&error))
    }

    fn unless_it_goes_on<T>(&mut self, written: io::Result<T>, instead: T) -> io::Result<T> {
        match written {
            Err(error) if self.goes_on && error.kind() != ErrorKind::Interrupted => {
                self.failed.get_or_insert(error);
                Ok(instead)
            }
            written => written,
        }
    }
}

impl Write for Output {
    fn write(&mut self, bytes: &[u8]) -> io::Result<usize> {
        let written = self.out.write(bytes);
        self.unless_it_goes_on(written, bytes.len())
    }

    fn flush(&mut self) -> io::Result<()> {
        let written = self.out.flush();
        self.unless_it_goes_on(written, ())
    }
}

/// Writes to standard output.
pub fn print(bytes: &[u8]) -> Result<(), Problem> {
    let mut out = Output::new(false)?;
    out.write_all(bytes).map_err(|error| Problem::output(&error))?;
    out.finish()
}

/// Writes to a file, or to standard output where none is named, or its own: others may write there too.
pub fn write(name: Option<&OsStr>, bytes: &[u8]) -> Result<(), Problem> {
    match name.filter(|name| !Identity::is_output(name)) {
        Some(name) => write_file(name, bytes),
        None => print(bytes),
    }
}
