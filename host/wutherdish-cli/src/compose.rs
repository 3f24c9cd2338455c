//! A point, composed from its text.

use std::ffi::OsStr;

use crate::commands::{feed, not_for_terminal};
use crate::files::write_file;
use crate::input::{Input, Kind};
use crate::output::write;
use crate::problem::Problem;
use crate::text;

/// Writes the record of the point that a text tells of.
pub fn record(file: &OsStr, output: Option<&OsStr>) -> Result<(), Problem> {
    not_for_terminal("a record is", output)?;
    let input = Input::read_text(file)?;
    input.spare(output.map(|output| ("-o", output)))?;
    write(output, &composed(&input)?)
}

/// Appends the point that a text tells of to a feed. What stands in the feed stays.
pub fn offer(file: &OsStr, name: &OsStr, is_leader: bool) -> Result<(), Problem> {
    let record = composed(&Input::read_text(file)?)?;
    let input = whole_feed(name)?;
    write_file(name, &[&input.bytes[..], &[u8::from(is_leader)], &record].concat())
}

fn composed(input: &Input) -> Result<Vec<u8>, Problem> {
    let Ok(text) = str::from_utf8(&input.bytes) else {
        return Err(Problem::file(&input.name, "expected the text of a point"));
    };
    let point = text::read(text).map_err(|bad| Problem::file(&input.name, bad))?;
    point.to_bytes().map_err(|error| Problem::file(&input.name, error))
}

/// A feed that can be read to its end: what is appended to another one would not be.
fn whole_feed(name: &OsStr) -> Result<Input, Problem> {
    let input = Input::read(name)?;
    if input.kind()? != Kind::Feed {
        return Err(Problem::file(&input.name, "no feed, which is what a point is appended to"));
    }
    match feed(&input)?.offers().find_map(Result::err) {
        Some(unreadable) => Err(input.bad(unreadable)),
        None => Ok(input),
    }
}
