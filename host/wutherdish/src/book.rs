//! A book of points with their verdicts, in bytes that the host owns or lends.

use crate::calls::answered;
use crate::field::Unreadable;
use crate::kept::{self, Kept};
use crate::lent;
use crate::reasons::Verdict;
use crate::refusal::Refusal;
use crate::settings::Settings;

/// A book over its bytes: a `Vec<u8>` or a box that it owns, or a slice that is lent to it. The bytes alone are the
/// book: they can be stored, and taken up again by [`Book::found`].
#[derive(Clone, PartialEq, Eq, Debug)]
pub struct Book<B>(B);

impl<B: AsRef<[u8]> + AsMut<[u8]>> Book<B> {
    /// Opens a book with these settings: they stand first, and all bytes after them become 0. Where it is refused, a
    /// lent slice keeps its bytes.
    ///
    /// ```
    /// use wutherdish::{Book, Refusal};
    ///
    /// assert_eq!(Book::open([0_u8; 100], &[]), Err(Refusal::Settings));
    /// ```
    pub fn open(mut bytes: B, settings: &[u8]) -> Result<Self, Refusal> {
        match lent::open(bytes.as_mut(), settings) {
            0 => Ok(Self(bytes)),
            number => Err(Refusal::new(number)),
        }
    }

    /// Takes bytes for a book. Each offer tests them, and is refused with [`Refusal::Book`] where they are none.
    pub fn found(bytes: B) -> Self {
        Self(bytes)
    }

    /// Offers a point. `leader` is 1 if its author leads its round, else 0. A refused offer and Fail leave the book as
    /// it is; any other verdict is kept with the point, and stays whatever is offered later. A point that names a
    /// majority as evidence marks its author's previous point certified, if that is kept, and with it what that one
    /// depends on, as many rounds deep as the settings' `commit_history_rounds` say, even if it is itself found invalid:
    /// [signatures are for the host to check](crate#the-hosts-duties).
    ///
    /// ```
    /// use wutherdish::{Book, Refusal};
    ///
    /// let mut book = Book::found([0_u8; 100]);
    /// assert_eq!(book.offer(&[], 0, &[]), Err(Refusal::Book));
    /// ```
    pub fn offer(&mut self, schedule: &[u8], leader: u8, record: &[u8]) -> Result<Verdict, Refusal> {
        let book = self.0.as_mut();
        answered(Verdict::read, |peers, answer| lent::offer(book, schedule, leader, record, peers, answer))
    }

    /// The settings that it was opened with.
    pub fn settings(&self) -> Result<Settings, Unreadable> {
        Settings::read(self.bytes()).map(|(settings, _)| settings)
    }

    /// The points that are kept, in the order of their offers.
    pub fn kept(&self) -> Result<Vec<Kept>, Unreadable> {
        kept::read(self.bytes())
    }

    /// The book's bytes.
    pub fn bytes(&self) -> &[u8] {
        self.0.as_ref()
    }

    /// The book's bytes, handed back.
    pub fn into_bytes(self) -> B {
        self.0
    }
}
