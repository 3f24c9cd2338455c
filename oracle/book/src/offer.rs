//! An offer: numbers 2 to 5, 11 and 12, the mark, the verdict and what is kept of it. (10 is reading the bytes.)

use oracle::answer::INVALID;
use oracle::numbers::{self, FULL, KEPT};
use oracle::value::{Id, Point, Through};
use oracle::{Answer, Verdict};

use crate::entry::BESIDE_RECORD;
use crate::judge::judge;
use crate::list::{is_version_of, prev};
use crate::spread::{self, Spread};
use crate::{Book, Entry, MOST, Marks, Mistake, Root, State};

/// r, r-1 and r-2 are in the DAG.
const ALL_ROUNDS: u8 = 3;
/// r alone: judging ends where the list would be needed.
const NO_LIST: u8 = 1;
/// `NoRoundInDag`
const NO_ROUND: u8 = 2;

/// What an offer brings. Of the peer buffer the length is enough: a verdict has its unknown peers.
#[derive(Clone, PartialEq, Eq, Debug)]
pub struct Offer {
    pub schedule: Vec<u8>,
    pub leader: u8,
    pub record: Vec<u8>,
    pub peer_buffer: u32,
}

/// What came of an offer.
#[derive(Debug)]
pub struct Offered {
    pub answer: Answer,
    /// The list, where it was needed.
    pub list: Option<Vec<u8>>,
    /// The place of the entry that the rule for marks marked, and whether it was marked before.
    pub marked: Option<(usize, bool)>,
    /// What the mark spread to.
    pub spread: Spread,
    /// The Rust panicked as is known, and the plain judge stood in.
    pub stood_in: bool,
}

impl Offered {
    fn unlisted(answer: Answer, stood_in: bool) -> Self {
        Self { answer, list: None, marked: None, spread: Spread::default(), stood_in }
    }
}

impl Book {
    /// Fail and numbers change nothing; any other verdict is appended as one uncertified entry.
    pub fn offer(&mut self, offer: &Offer) -> Offered {
        let point = match self.refusal(offer) {
            Ok(point) => point,
            Err(number) => return Offered::unlisted(Answer::Number(number), false),
        };
        let offered = self.judge(offer, &point);
        if let Answer::Verdict(verdict) = &offered.answer
            && let Some(state) = self.state(verdict)
        {
            let certified = self.made(Mistake::KeptCertified);
            let place = if self.made(Mistake::KeptFirst) { 0 } else { self.entries.len() };
            self.entries.insert(place, Entry { record: offer.record.clone(), id: point.id, certified, state });
        }
        offered
    }

    fn refusal(&self, offer: &Offer) -> Result<Point, u8> {
        let Offer { schedule, leader, record, peer_buffer } = offer;
        let read = numbers::before(&self.settings, schedule, record, *leader, ALL_ROUNDS, *peer_buffer)?;
        let full = self.is_full(record);
        if full && self.made(Mistake::FullFirst) {
            return Err(FULL);
        }
        if self.is_kept(&read.point.id) {
            return Err(KEPT);
        }
        if full { Err(FULL) } else { Ok(read.point) }
    }

    fn is_kept(&self, id: &Id) -> bool {
        let any_version = self.made(Mistake::VersionIsKept);
        self.entries.iter().any(|entry| entry.id == *id || (any_version && is_version_of(&entry.id, id)))
    }

    fn is_full(&self, record: &[u8]) -> bool {
        let most = MOST - usize::from(self.made(Mistake::LastRefused));
        let least = record.len() + BESIDE_RECORD + usize::from(self.made(Mistake::FitRefused));
        self.entries.len() >= most || least > self.length - self.used()
    }

    fn judge(&mut self, offer: &Offer, point: &Point) -> Offered {
        let (unlisted, stood_in) = judge(&self.settings, offer, NO_LIST, Vec::new());
        if !is_no_round(&unlisted) {
            if self.made(Mistake::MarkUnneeded) {
                self.mark_prev(point);
            }
            return Offered::unlisted(unlisted, stood_in);
        }
        let late = self.marks == Marks::Spread(Some(spread::Mistake::AfterJudging));
        let before = late.then(|| self.list(point));
        let (marked, spread) = self.mark_prev(point);
        let list = before.unwrap_or_else(|| self.list(point));
        let (answer, stood_in) = judge(&self.settings, offer, ALL_ROUNDS, list.clone());
        if let Some((place, false)) = marked
            && self.made(Mistake::MarkTakenBack)
            && matches!(&answer, Answer::Verdict(verdict) if verdict.kind == INVALID)
        {
            self.entries[place].certified = false;
        }
        Offered { answer, list: Some(list), marked, spread, stood_in }
    }

    /// The rule for marks: gives the previous point's place and whether it was marked before, and what the mark spread to.
    fn mark_prev(&mut self, point: &Point) -> (Option<(usize, bool)>, Spread) {
        let Some(prev) = prev(point) else { return (None, Spread::default()) };
        let before = self.place(&prev).map(|place| (place, self.entries[place].certified));
        let mistake = self.mistake;
        let is_marked = before.is_some_and(|(place, _)| covers(&self.entries[place], &prev, mistake));
        self.entries.iter_mut().for_each(|entry| entry.certified |= covers(entry, &prev, mistake));
        let spread = match self.marks {
            Marks::Spread(spread) if is_marked => self.spread(&prev, spread),
            _ => Spread::default(),
        };
        (before, spread)
    }

    /// What is kept of a verdict.
    fn state(&self, verdict: &Verdict) -> Option<State> {
        let state = State::of_verdict(verdict);
        match state {
            None if self.made(Mistake::KeptFail) => Some(State::IllFormed(1)),
            Some(State::IllFormed(_)) if self.made(Mistake::IllFormedLeft) => None,
            Some(State::Invalid(_)) if self.made(Mistake::InvalidLeft) => None,
            Some(State::TransInvalid(root)) if self.made(Mistake::RootThroughIncludes) => {
                Some(State::TransInvalid(Root { through: Through::Includes, ..root }))
            }
            Some(State::TransInvalid(root)) if self.made(Mistake::RootReason) => {
                Some(State::TransInvalid(Root { reason: 1, ..root }))
            }
            state => state,
        }
    }
}

/// Whether this previous point's mark is on an entry before it spreads.
fn covers(entry: &Entry, prev: &Id, mistake: Option<Mistake>) -> bool {
    match mistake {
        Some(Mistake::NoMark) => false,
        Some(Mistake::MarkAll) => true,
        Some(Mistake::MarkVersions) => is_version_of(&entry.id, prev),
        Some(Mistake::MarkWellFormed) => entry.id == *prev && !matches!(entry.state, State::IllFormed(_)),
        Some(Mistake::MarkValid) => entry.id == *prev && entry.state == State::Valid,
        _ => entry.id == *prev,
    }
}

fn is_no_round(answer: &Answer) -> bool {
    matches!(answer, Answer::Verdict(verdict) if verdict.kind == INVALID && verdict.reason == NO_ROUND)
}
