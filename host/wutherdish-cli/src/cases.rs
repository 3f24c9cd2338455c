//! A file of cases: each is its kind, its number of blobs, and each blob after its length.

use wutherdish::Unreadable;

use crate::calls::Call;

/// A call, with what it is lent.
pub struct Case<'a> {
    /// Its place in the file, counted from 1.
    pub place: usize,
    /// Which call it is.
    pub call: Call<'a>,
    /// How many bytes it is lent for unknown peers, or for the record that it writes.
    pub room: usize,
    /// Where the next one begins.
    pub end: usize,
}

/// The cases of a file, one after another. One that can't be read is the last.
pub struct Cases<'a> {
    bytes: &'a [u8],
    at: usize,
    place: usize,
}

impl<'a> Cases<'a> {
    /// The cases that some bytes are.
    pub fn new(bytes: &'a [u8]) -> Self {
        Self { bytes, at: 0, place: 0 }
    }

    /// The next bytes, if there are n.
    fn take(&mut self, count: usize, wanted: &'static str) -> Result<&'a [u8], Unreadable> {
        let unreadable = Unreadable { at: self.at, wanted };
        let taken = self.at.checked_add(count).and_then(|end| self.bytes.get(self.at..end)).ok_or(unreadable)?;
        self.at += count;
        Ok(taken)
    }

    fn blob(&mut self) -> Result<&'a [u8], Unreadable> {
        let length = number(self.take(4, "the length of a blob")?);
        self.take(length, "a blob as long as said")
    }

    fn case(&mut self) -> Result<Case<'a>, Unreadable> {
        let wanted = "a case: 1 for verifying, 2 for judging, 18 for judging with a trail, 19 for what the network can force, \
                      20 for what clears a point, 16 for writing or 17 for converting, and its blobs";
        let unreadable = Unreadable { at: self.at, wanted };
        let head = self.take(2, unreadable.wanted)?;
        let (kind, count) = (head[0], head[1]);
        let blobs = (0..count).map(|_| self.blob()).collect::<Result<Vec<_>, _>>()?;
        let (call, room) = Call::read(kind, &blobs).ok_or(unreadable)?;
        let room = if room.len() == 4 { number(room) } else { return Err(unreadable) };
        self.place += 1;
        Ok(Case { place: self.place, call, room, end: self.at })
    }
}

impl<'a> Iterator for Cases<'a> {
    type Item = Result<Case<'a>, Unreadable>;

    fn next(&mut self) -> Option<Self::Item> {
        if self.at >= self.bytes.len() {
            return None;
        }
        let case = self.case();
        if case.is_err() {
            self.at = self.bytes.len();
        }
        Some(case)
    }
}

fn number(bytes: &[u8]) -> usize {
    bytes.iter().rev().fold(0, |number, byte| number << 8 | usize::from(*byte))
}
