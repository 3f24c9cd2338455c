//! What a command is given to read.

use std::ffi::OsStr;
use std::fs::File;
use std::io::{self, Read};

use wutherdish::{SETTINGS, Unreadable};

use crate::files::Identity;
use crate::problem::{Problem, shown};
use crate::streams;

/// The longest text that is read, in bytes: 765 rows with whole ids are a tenth of it.
const MOST_TEXT: u64 = 1_000_000;

/// A file, read whole.
pub struct Input {
    /// Its name, for messages.
    pub name: String,
    /// Its bytes.
    pub bytes: Vec<u8>,
    identity: Option<Identity>,
}

/// What a file's first bytes say that it is.
#[derive(Clone, Copy, PartialEq, Eq, Debug)]
pub enum Kind {
    /// Settings, a schedule, and points.
    Feed,
    /// Settings and kept points.
    Book,
    /// One point record.
    Record,
    /// Calls of verifying, judging, writing and converting, and others about judging.
    Cases,
}

impl Input {
    /// Reads a file, or standard input where it is named `-`; no further than its front where that is none of a feed,
    /// a book, a point record or a file of cases, since some input never ends.
    pub fn read(name: &OsStr) -> Result<Self, Problem> {
        Self::read_by(name, |file, bytes| {
            file.take(SETTINGS as u64 + 1).read_to_end(bytes)?;
            if kind(bytes).is_some() { file.read_to_end(bytes).map(drop) } else { Ok(()) }
        })
    }

    /// Reads a file, or standard input likewise, as text; no further than texts of points go.
    pub fn read_text(name: &OsStr) -> Result<Self, Problem> {
        let input = Self::read_by(name, |file, bytes| file.take(MOST_TEXT + 1).read_to_end(bytes).map(drop))?;
        match input.bytes.len() as u64 > MOST_TEXT {
            true => Err(Problem::file(&input.name, "over a megabyte, which no text of a point has")),
            false => Ok(input),
        }
    }

    fn read_by(name: &OsStr, read: impl Fn(&mut File, &mut Vec<u8>) -> io::Result<()>) -> Result<Self, Problem> {
        let (name, file) = match name == "-" {
            true => ("standard input".into(), streams::input()),
            false => (shown(name), File::open(name)),
        };
        let read = file.and_then(|mut file| {
            let (mut bytes, found) = (Vec::new(), file.metadata()?);
            read(&mut file, &mut bytes)?;
            io::Result::Ok((bytes, Identity::of(&found)))
        });
        match read {
            Ok((bytes, identity)) => Ok(Self { name, bytes, identity }),
            Err(error) => Err(Problem::file(name, error)),
        }
    }

    /// What it is.
    pub fn kind(&self) -> Result<Kind, Problem> {
        let wanted = "a feed or a book (tag 32), a point record (tag 1), or a case (1, 2 or 16 to 20)";
        kind(&self.bytes).ok_or_else(|| self.bad(Unreadable { at: 0, wanted }))
    }

    /// Refuses to write over it: to the file that an option names, or to standard output.
    pub fn spare(&self, output: Option<(&str, &OsStr)>) -> Result<(), Problem> {
        let (written, what) = match output {
            Some((option, file)) => (Identity::named(file), format!("{option} {}", shown(file))),
            None => (Identity::of_output(), "standard output".into()),
        };
        match self.identity.is_some() && self.identity == written {
            true => Err(Problem::Usage(format!("{what} would write over the input"))),
            false => Ok(()),
        }
    }

    /// The problem that bytes of it can't be read.
    pub fn bad(&self, unreadable: Unreadable) -> Problem {
        Problem::file(&self.name, unreadable)
    }
}

/// What the bytes at a file's front say that it is. Feed and book both begin with settings; then a feed has a span of
/// its schedule, a book an entry, a 0 or its end. A record begins with its id, tag 1 with 68 bytes, and no case has 68
/// blobs.
fn kind(bytes: &[u8]) -> Option<Kind> {
    if bytes.starts_with(&[1, 68, 0]) {
        return Some(Kind::Record);
    }
    match (bytes.first(), bytes.get(SETTINGS)) {
        (Some(1 | 2 | 16..=20), _) => Some(Kind::Cases),
        (Some(32), None | Some(0 | 1)) if bytes.len() >= SETTINGS => Some(Kind::Book),
        (Some(32), _) => Some(Kind::Feed),
        _ => None,
    }
}
