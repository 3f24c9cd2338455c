//! Fields of a tag, a length and content.

use std::error::Error;
use std::fmt::{self, Display, Formatter};

use crate::build_error::MOST_PEERS;

/// Bytes that do not read as what they should be.
#[derive(Clone, Copy, PartialEq, Eq, Debug)]
pub struct Unreadable {
    /// The place of the field that can't be read, counted from the front of the bytes.
    pub at: usize,
    /// What should stand there.
    pub wanted: &'static str,
}

impl Unreadable {
    /// The same fault, in bytes that stand after others.
    pub(crate) fn after(self, others: usize) -> Self {
        Self { at: others + self.at, ..self }
    }
}

impl Display for Unreadable {
    fn fmt(&self, f: &mut Formatter<'_>) -> fmt::Result {
        write!(f, "byte {}: expected {}", self.at, self.wanted)
    }
}

impl Error for Unreadable {}

/// What was read, if nothing stands after it.
pub(crate) fn whole<T>(bytes: &[u8], (value, rest): (T, &[u8])) -> Result<T, Unreadable> {
    let end = Unreadable { at: bytes.len() - rest.len(), wanted: "the end, and found more bytes" };
    if rest.is_empty() { Ok(value) } else { Err(end) }
}

/// Two arrays, one after the other.
pub(crate) fn join<const A: usize, const B: usize, const C: usize>(front: [u8; A], back: [u8; B]) -> [u8; C] {
    const { assert!(A + B == C) };
    std::array::from_fn(|place| if place < A { front[place] } else { back[place - A] })
}

/// The tag and the length of a field with `N` bytes of content.
pub(crate) fn head<const N: usize>(tag: u8) -> [u8; 3] {
    const { assert!(N <= u16::MAX as usize) };
    join([tag], (N as u16).to_le_bytes())
}

/// A field.
pub(crate) fn field<const N: usize>(tag: u8, content: [u8; N]) -> Vec<u8> {
    [&head::<N>(tag)[..], &content].concat()
}

/// A field of at most 255 rows after a front; where there are more, their number is the error.
pub(crate) fn field_of_rows<const A: usize, const N: usize>(
    tag: u8,
    front: [u8; A],
    rows: &[[u8; N]],
) -> Result<Vec<u8>, usize> {
    const { assert!(A + MOST_PEERS * N <= u16::MAX as usize) };
    let count = u8::try_from(rows.len()).map_err(|_| rows.len())?;
    let length = A as u16 + u16::from(count) * N as u16;
    Ok([&[tag], &length.to_le_bytes()[..], &front, rows.as_flattened()].concat())
}

/// Reads field after field.
pub(crate) struct Fields<'a> {
    rest: &'a [u8],
    /// How many bytes there were before any was read.
    length: usize,
}

impl<'a> Fields<'a> {
    pub fn new(bytes: &'a [u8]) -> Self {
        Self { rest: bytes, length: bytes.len() }
    }

    /// What is left.
    pub fn rest(&self) -> &'a [u8] {
        self.rest
    }

    /// The tag of the next field, if there is one.
    pub fn tag(&self) -> Option<u8> {
        self.rest.first().copied()
    }

    /// What the next field says. It has this tag, and `parse` takes its whole content.
    pub fn read<T>(
        &mut self,
        tag: u8,
        wanted: &'static str,
        parse: impl FnOnce(&mut Content<'a>) -> Option<T>,
    ) -> Result<T, Unreadable> {
        let unreadable = Unreadable { at: self.length - self.rest.len(), wanted };
        let (mut content, rest) = split(self.rest, tag).ok_or(unreadable)?;
        let value = parse(&mut content).filter(|_| content.0.is_empty()).ok_or(unreadable)?;
        self.rest = rest;
        Ok(value)
    }
}

/// The content of the field at the front, and what stands after the field.
fn split(bytes: &[u8], tag: u8) -> Option<(Content<'_>, &[u8])> {
    let [first, low, high, rest @ ..] = bytes else { return None };
    let (content, rest) = rest.split_at_checked(u16::from_le_bytes([*low, *high]).into())?;
    (*first == tag).then_some((Content(content), rest))
}

/// Takes the parts of a content, as long as there are any.
pub(crate) struct Content<'a>(pub &'a [u8]);

impl<'a> Content<'a> {
    pub fn array<const N: usize>(&mut self) -> Option<[u8; N]> {
        let (array, rest) = self.0.split_first_chunk()?;
        self.0 = rest;
        Some(*array)
    }

    /// The whole rows that are left, if these are at most 255.
    pub fn rows<const N: usize>(&mut self) -> Option<&'a [[u8; N]]> {
        let (rows, rest) = self.0.as_chunks();
        self.0 = rest;
        (rows.len() <= MOST_PEERS).then_some(rows)
    }

    pub fn u8(&mut self) -> Option<u8> {
        self.array().map(u8::from_le_bytes)
    }

    pub fn u16(&mut self) -> Option<u16> {
        self.array().map(u16::from_le_bytes)
    }

    pub fn u32(&mut self) -> Option<u32> {
        self.array().map(u32::from_le_bytes)
    }

    pub fn u64(&mut self) -> Option<u64> {
        self.array().map(u64::from_le_bytes)
    }

    /// A byte that is 0 or 1.
    pub fn flag(&mut self) -> Option<bool> {
        match self.u8()? {
            0 => Some(false),
            1 => Some(true),
            _ => None,
        }
    }
}
