//! What the library has to leave: the oracle's answer, and the plain book's.

use book::{Book, Marks, Offer, spread};
use inputs::call::Call;
use oracle::arrangement::converted;
use oracle::file::Case;
use oracle::question::Question;
use oracle::value::Peer;
use oracle::{Answer, clearing, forcing};
use plain::{KNOWN_PANIC, Prepared};
use trail::Trail;

/// The model; for the self-test with one of its mistakes made in it.
#[derive(Clone, Copy, Default)]
pub struct Model {
    pub judge_mistake: Option<plain::Mistake>,
    pub book_mistake: Option<book::Mistake>,
    /// In the book's rule for marks.
    pub marks_mistake: Option<spread::Mistake>,
}

/// What a call has to leave.
pub struct Expected {
    pub number: u8,
    /// None if it keeps its bytes.
    pub answer: Option<Vec<u8>>,
    /// At the peer buffer's front.
    pub unknown: Vec<Peer>,
    /// None if the call is lent none, or one that is compared elsewhere.
    pub book: Option<Vec<u8>>,
    /// At the output's front, with how many bytes or rows these are in the count; none if both keep their bytes.
    pub written: Option<Vec<u8>>,
    /// The kind of a verdict and its reason.
    pub verdict: Option<(u8, u8)>,
    /// The Rust panicked as is known, and the plain judge stood in.
    pub stood_in: bool,
}

impl Expected {
    /// A panic that isn't known is no answer.
    pub fn new(answer: &Answer, book: Option<Vec<u8>>, stood_in: bool) -> Result<Self, String> {
        Ok(match answer {
            Answer::Number(number) => Self { book, stood_in, ..Self::number(*number) },
            Answer::Verdict(verdict) => Self {
                number: 0,
                answer: Some(verdict.bytes().to_vec()),
                unknown: verdict.unknown.clone(),
                book,
                written: None,
                verdict: Some((verdict.kind, verdict.reason)),
                stood_in,
            },
            Answer::Panic(message) => return Err(format!("the oracle has no answer: {message}")),
        })
    }

    /// A number or 0, and nothing changed.
    fn number(number: u8) -> Self {
        let (unknown, stood_in) = (Vec::new(), false);
        Self { number, answer: None, unknown, book: None, written: None, verdict: None, stood_in }
    }

    /// A record, or the number in its place.
    fn written(record: Result<Vec<u8>, u8>) -> Self {
        match record {
            Ok(record) => Self { written: Some(record), ..Self::number(0) },
            Err(number) => Self::number(number),
        }
    }
}

impl Model {
    /// `fill` is what the slice of an opening holds before.
    pub fn expected(&self, call: &Call, fill: u8) -> Result<Expected, String> {
        match call {
            Call::Case(case) => self.case(case),
            Call::Open { settings, length } => {
                let mut slice = vec![fill; *length];
                let number = book::open(&mut slice, settings);
                Ok(Expected { book: Some(slice), ..Expected::number(number) })
            }
            Call::Offer { book, offer } => {
                let slice = book.as_ref().ok_or("an offer to the book of the call before has no model here")?;
                self.offer(slice, offer)
            }
            Call::Convert { from, record, length } => Ok(Expected::written(converted(record, *from, *length))),
            Call::Compose { draft, length } => Ok(Expected::written(draft.composed(*length))),
            Call::Trail { case, length } => self.trail(case, *length),
            Call::Clearing(question) => self.clearing(question),
            Call::Force { question, length } => {
                let found = forcing::found(question, |list| self.answer(&question.judging(list)).0)?;
                Ok(Expected::written(forcing::rows_bytes(&found, *length)))
            }
        }
    }

    fn clearing(&self, question: &Question) -> Result<Expected, String> {
        Ok(match clearing::found(question, |list| self.answer(&question.judging(list)).0)? {
            Ok(clearing) => Expected { answer: Some(clearing.bytes().to_vec()), ..Expected::number(0) },
            Err(number) => Expected::number(number),
        })
    }

    /// The rows of a trail stand in the output.
    fn trail(&self, case: &Case, length: usize) -> Result<Expected, String> {
        let trail = match self.judge_mistake {
            None => trail::trail(case)?,
            mistake => {
                let (answer, rows) = Prepared::new(case).trail(mistake);
                Trail { answer, rows, by_plain: false }
            }
        };
        let Trail { answer, rows, by_plain } = trail.in_room(length);
        let expected = Expected::new(&answer, None, by_plain)?;
        let written = (expected.number == 0).then(|| rows.into_flattened());
        Ok(Expected { written, ..expected })
    }

    fn case(&self, case: &Case) -> Result<Expected, String> {
        let (answer, stood_in) = self.answer(case);
        Expected::new(&answer, None, stood_in)
    }

    /// The Rust's answer; where it panics, as is known, the plain judge's, and true.
    fn answer(&self, case: &Case) -> (Answer, bool) {
        if self.judge_mistake.is_some() {
            return (Prepared::new(case).answer(self.judge_mistake), false);
        }
        match case.answer() {
            Answer::Panic(message) if message.starts_with(KNOWN_PANIC) => (Prepared::new(case).answer(None), true),
            answer => (answer, false),
        }
    }

    /// A book with the mistake that is made in books, if one is.
    pub fn mistaken(&self, book: &Book) -> Option<Book> {
        let of_marks = self.marks_mistake.map(|mistake| book.clone().marking(Marks::Spread(Some(mistake))));
        of_marks.or(self.book_mistake.map(|mistake| book.mistaken(mistake)))
    }

    fn offer(&self, slice: &[u8], offer: &Offer) -> Result<Expected, String> {
        let Some(book) = Book::read_mistaken(slice, self.book_mistake) else {
            let unchanged = Some(slice.to_vec());
            return Expected::new(&Answer::Number(oracle::numbers::BOOK), unchanged, false);
        };
        let mut book = self.mistaken(&book).unwrap_or(book);
        let offered = book.offer(offer);
        let after = if matches!(offered.answer, Answer::Number(_)) { slice.to_vec() } else { book.bytes() };
        Expected::new(&offered.answer, Some(after), offered.stood_in)
    }
}
