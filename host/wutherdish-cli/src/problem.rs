//! What can go wrong, and the exit code that says so.

use std::ffi::OsStr;
use std::fmt::{self, Display, Formatter};
use std::io::{self, Write};
use std::process::ExitCode;

/// The exit code where nobody reads the output any more: what a shell says of a command that a closed pipe ended.
const CLOSED: u8 = 141;

/// Why a command did not do all that was asked for.
#[derive(Debug)]
pub enum Problem {
    /// The command was called in a wrong way.
    Usage(String),
    /// What it was given can't be read, or what it made can't be written.
    File {
        /// The file, as the user named it.
        name: String,
        /// What is wrong with it.
        what: String,
    },
    /// Nobody reads the output any more.
    Closed,
}

impl Problem {
    /// A file that is not what it should be.
    pub fn file(name: impl Into<String>, what: impl Display) -> Self {
        Self::File { name: name.into(), what: what.to_string() }
    }

    /// Standard output that took no more.
    pub fn output(error: &io::Error) -> Self {
        match error.kind() {
            io::ErrorKind::BrokenPipe => Self::Closed,
            _ => Self::file("standard output", error),
        }
    }

    /// Says the problem, and gives its exit code.
    pub fn report(&self) -> ExitCode {
        let code = match self {
            Self::Usage(_) => 2,
            Self::File { .. } => 1,
            Self::Closed => return ExitCode::from(CLOSED),
        };
        remark(&self.to_string());
        ExitCode::from(code)
    }
}

impl Display for Problem {
    fn fmt(&self, f: &mut Formatter<'_>) -> fmt::Result {
        match self {
            Self::Usage(what) => write!(f, "{what}\n`wutherdish help` says how it is used"),
            Self::File { name, what } => write!(f, "{name}: {what}"),
            Self::Closed => f.write_str("the output is closed"),
        }
    }
}

/// Says something on standard error, if anybody reads that.
pub fn remark(what: &str) {
    let _ = writeln!(io::stderr(), "wutherdish: {what}");
}

/// An argument as a message writes it: in quotes where it is empty or would not be seen.
pub fn shown(argument: &OsStr) -> String {
    let text = argument.to_string_lossy();
    if text.is_empty() || text.contains(char::is_control) { format!("{text:?}") } else { text.into_owned() }
}
