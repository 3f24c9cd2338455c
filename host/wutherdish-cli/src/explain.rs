//! What the calls say of each point, in words.

use std::io::Write;

use wutherdish::{Point, Refusal, Unreadable};

use crate::calls::{Answer, Call};
use crate::cases::{Case, Cases};
use crate::feed::Feed;
use crate::problem::Problem;
use crate::progress::Progress;
use crate::room::Room;
use crate::summary::Summary;
use crate::words::{self, Words};

/// How points are explained, and where to.
pub struct Explain<'a, W> {
    /// How it is said.
    pub words: Words,
    /// Whether the last point alone is explained.
    pub last: bool,
    /// How far it is.
    pub progress: Progress,
    /// Where the words go.
    pub out: &'a mut W,
}

impl<W: Write> Explain<'_, W> {
    /// Offers the points of a feed to a book and explains the answers. Gives what can't be read; the points before it
    /// are explained all the same.
    pub fn feed(&mut self, feed: &Feed<'_>, room: &mut Room) -> Result<Option<Unreadable>, Problem> {
        self.front(feed)?;
        let mut summary = Summary::default();
        let (mut bad, mut last) = (None, None);
        for offer in feed.offers() {
            match offer {
                Ok(offer) => {
                    let answer = room.offer(feed, &offer).map(Answer::Verdict);
                    let point = self.words.point(&offer.point, offer.leader);
                    last = self.explain(offer.place, &point, &answer)?;
                    summary.add(&answer);
                    self.progress.show(offer.place, offer.end);
                }
                Err(unreadable) => bad = Some(unreadable),
            }
        }
        self.end(last, &format!("points: {}\nverdicts: {summary}\nkept: {}", summary.total(), room.kept()))?;
        self.note(room)?;
        Ok(bad)
    }

    /// Makes the calls of a file of cases and explains the answers, likewise; of each that judges also all faults, and what the network
    /// can force, if these are wanted.
    pub fn cases(&mut self, cases: Cases<'_>, trail: bool, force: bool) -> Result<Option<Unreadable>, Problem> {
        if !self.last {
            self.note_names()?;
        }
        let mut summary = Summary::default();
        let (mut bad, mut last) = (None, None);
        for case in cases {
            match case {
                Ok(mut case) => {
                    case.call.ask(trail, force);
                    let answer = case.call.answer(case.room);
                    last = self.explain(case.place, &self.case(&case), &answer)?;
                    summary.add(&answer);
                    self.progress.show(case.place, case.end);
                }
                Err(unreadable) => bad = Some(unreadable),
            }
        }
        self.end(last, &format!("cases: {}\nverdicts: {summary}", summary.total()))?;
        Ok(bad)
    }

    /// Says what a point record says. Nothing judges it.
    pub fn record(&mut self, point: &Point) -> Result<(), Problem> {
        self.note_names()?;
        self.line(&self.words.record(point).join("\n"))?;
        self.line("\nnote: a record alone is not judged; a feed or a case has what judging takes")
    }

    fn front(&mut self, feed: &Feed<'_>) -> Result<(), Problem> {
        if self.last {
            return Ok(());
        }
        let (settings, schedule) = &feed.front;
        self.line(&format!("settings: {}", self.words.settings(settings)))?;
        self.line(&format!("schedule: {}", words::schedule(schedule)))?;
        self.note_names()?;
        self.line("")
    }

    fn note_names(&mut self) -> Result<(), Problem> {
        match self.words.names.have_tails() {
            true => self.line(&format!("note: {}", self.words.names.words())),
            false => Ok(()),
        }
    }

    /// What is to be known of the book's room; of the last point alone, only that others have no part in its verdict.
    fn note(&mut self, room: &Room) -> Result<(), Problem> {
        match room.note().filter(|_| !self.last || room.refused() > 0) {
            Some(note) => self.line(&format!("\nnote: {note}")),
            None => Ok(()),
        }
    }

    fn case(&self, case: &Case<'_>) -> String {
        let unknown = match case.call {
            Call::Write(_) => "a point of an unknown role",
            Call::Verify(_) | Call::Judge(..) | Call::Clear(_) | Call::Force(_) | Call::Convert(..) => {
                "a record that can't be read"
            }
        };
        let point = |leader| {
            let said = |point| self.words.point(&point, leader);
            case.call.point().map_or_else(|| unknown.into(), said)
        };
        match &case.call {
            Call::Verify(_) => format!("verify: {}", point(0)),
            Call::Judge(judging, _) => format!("judge: {}, presence {}", point(judging.leader), judging.presence),
            Call::Force(judging) => format!("force: {}, presence {}", point(judging.leader), judging.presence),
            Call::Clear(judging) => format!("clear: {}, presence {}", point(judging.leader), judging.presence),
            Call::Write(_) => format!("write: {}", point(0)),
            Call::Convert(to, _) => format!("convert: {}, from {} to {}", point(0), to.other().name(), to.name()),
        }
    }

    /// Says what was answered; gives it back where it is said only of the last point.
    fn explain(
        &mut self,
        place: usize,
        point: &str,
        answer: &Result<Answer, Refusal>,
    ) -> Result<Option<String>, Problem> {
        let words = format!("{place:>4}  {point}\n      {}", self.words.answer(answer).join("\n      "));
        if self.last {
            return Ok(Some(words));
        }
        self.line(&words).map(|()| None)
    }

    /// The last point alone, or the summary.
    fn end(&mut self, last: Option<String>, summary: &str) -> Result<(), Problem> {
        match last {
            Some(words) => self.line(&words),
            None if self.last => Ok(()),
            None => self.line(&format!("\n{summary}")),
        }
    }

    fn line(&mut self, line: &str) -> Result<(), Problem> {
        writeln!(self.out, "{line}").map_err(|error| Problem::output(&error))
    }
}
