//! A point's text, in the form in which `explain` says what a record says.

use std::collections::BTreeMap;
use std::fmt::{self, Display, Formatter};

use wutherdish::{PeerId, Point, Refusal};

use crate::spelling;

/// A line that is not what it should be.
#[derive(PartialEq, Eq, Debug)]
pub struct Bad {
    /// Its place in the text, counted from 1.
    line: usize,
    what: String,
}

/// The point that a text tells of. Whether it is well formed is not tested.
pub fn read(text: &str) -> Result<Point, Bad> {
    let mut lines = Lines::new(text);
    let (id, role) = lines.part("point ", spelling::point)?;
    let (payload_len, payload_bytes) = lines.part("payload:", spelling::payload)?;
    let point = Point {
        id,
        payload_len,
        payload_bytes,
        includes: lines.map("includes:", spelling::pair)?,
        witness: lines.map("witness:", spelling::pair)?,
        evidence: lines.map("evidence:", spelling::signer)?.into_keys().collect(),
        anchor_proof: lines.part("anchor proof link:", spelling::link)?,
        anchor_trigger: lines.part("anchor trigger link:", spelling::link)?,
        role,
        time: lines.part("time:", |words| spelling::number(words, u64::MAX))?,
        anchor_time: lines.part("anchor time:", |words| spelling::number(words, u64::MAX))?,
    };
    lines.end()?;
    Ok(point)
}

/// The lines that say something of the point, each with its place: not empty ones, notes and remarks.
struct Lines<'a> {
    rest: std::vec::IntoIter<(usize, &'a str)>,
    /// The place after the last line.
    end: usize,
}

impl<'a> Lines<'a> {
    fn new(text: &'a str) -> Self {
        let says = |words: &str| !(words.is_empty() || words.starts_with("note:") || words.starts_with('#'));
        let lines = (1..).zip(text.lines().map(str::trim)).filter(|(_, words)| says(words));
        Self { rest: lines.collect::<Vec<_>>().into_iter(), end: text.lines().count() + 1 }
    }

    /// The next line, if there is one.
    fn peek(&self) -> Option<(usize, &'a str)> {
        self.rest.as_slice().first().copied()
    }

    /// What the next line says after its label.
    fn labelled(&mut self, label: &str) -> Result<(usize, &'a str), Bad> {
        let (line, words) = self.peek().unwrap_or((self.end, ""));
        let wanted = || Bad { line, what: format!("expected a line that begins with `{}`", label.trim_end()) };
        let after = words.strip_prefix(label).ok_or_else(wanted)?;
        self.rest.next();
        Ok((line, after.trim_start()))
    }

    /// What the next line tells after its label.
    fn part<T>(&mut self, label: &str, read: impl Fn(&str) -> Result<T, String>) -> Result<T, Bad> {
        let (line, words) = self.labelled(label)?;
        read(words).map_err(|what| Bad { line, what })
    }

    /// A map: a line that may say how many rows there are, and these, by their peers in any order.
    fn map<T>(
        &mut self,
        label: &str,
        read: fn(&str) -> Result<(PeerId, T), String>,
    ) -> Result<BTreeMap<PeerId, T>, Bad> {
        let (head, count) = self.labelled(label)?;
        let mut rows = BTreeMap::new();
        while let Some((line, words)) = self.row() {
            let (peer, row) = read(words).map_err(|what| Bad { line, what })?;
            if let Some((first, _)) = rows.insert(peer, (line, row)) {
                let (number, why) = (Refusal::Twice.number(), Refusal::Twice);
                return Err(Bad { line, what: format!("number {number}, {why}: this one has line {first} already") });
            }
        }
        let said = if count.is_empty() { Ok(rows.len()) } else { spelling::number(count, usize::MAX) };
        match said.map_err(|what| Bad { line: head, what })? {
            said if said == rows.len() => Ok(rows.into_iter().map(|(peer, (_, row))| (peer, row)).collect()),
            said => Err(Bad { line: head, what: format!("it says {said} rows, and counted they are {}", rows.len()) }),
        }
    }

    /// The next line, if it is a row: these have no colon, and all else has.
    fn row(&mut self) -> Option<(usize, &'a str)> {
        self.peek().filter(|(_, words)| !words.contains(':'))?;
        self.rest.next()
    }

    /// Nothing is left.
    fn end(&self) -> Result<(), Bad> {
        self.peek().map_or(Ok(()), |(line, _)| Err(Bad { line, what: "expected the end of the text".into() }))
    }
}

impl Display for Bad {
    fn fmt(&self, f: &mut Formatter<'_>) -> fmt::Result {
        write!(f, "line {}: {}", self.line, self.what)
    }
}
